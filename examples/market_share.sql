-- The share of each brand in the market of a year, in percent, and the points won or lost against the year before.
CREATE TABLE MARKET (BRAND TEXT, YR INT, AMT DECIMAL(2), PRIMARY KEY (BRAND, YR));
INSERT INTO MARKET VALUES
  ('ours', 2023, 150.00), ('rival', 2023, 250.00), ('others', 2023, 100.00),
  ('ours', 2024, 210.00), ('rival', 2024, 240.00), ('others', 2024, 150.00);

SELECT YR, BRAND, S, SHARE, POINTS
FROM MARKET
MODEL
  DIMENSION BY (BRAND, YR)
  MEASURES (AMT S, CAST(NULL AS DECIMAL(1)) SHARE, CAST(NULL AS DECIMAL(1)) POINTS)
RULES (
  SHARE[ANY, ANY] = S[CV(), CV()] * 100 / SUM(S)[ANY, CV()],
  POINTS[ANY, ANY] = SHARE[CV(), CV()] - SHARE[CV(), CV() - 1]
)
ORDER BY YR, BRAND;
