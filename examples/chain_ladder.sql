-- Claims paid up to each age of three accident years. Factors from age to age fill the triangle.
-- Row 0 has the factors, and REST is what is still to be paid.
CREATE TABLE CLAIMS (YR INT, AGE INT, PAID DECIMAL(2), PRIMARY KEY (YR, AGE));
INSERT INTO CLAIMS VALUES
  (2022, 0, 100.00), (2022, 1, 150.00), (2022, 2, 165.00),
  (2023, 0, 120.00), (2023, 1, 180.00),
  (2024, 0, 140.00);

SELECT YR, AGE, C, F, REST
FROM CLAIMS
MODEL
  DIMENSION BY (YR, AGE)
  MEASURES (PAID C, CAST(NULL AS DECIMAL(4)) F, CAST(NULL AS DECIMAL(2)) REST)
RULES (
  F[0, FOR AGE FROM 1 TO 2 INCREMENT 1] =
    SUM(C)[YR <= 2024 - CV(AGE), CV()] / SUM(C)[YR <= 2024 - CV(AGE), CV() - 1],
  C[FOR YR FROM 2022 TO 2024 INCREMENT 1, FOR AGE FROM 1 TO 2 INCREMENT 1] =
    PRESENTV(C[CV(), CV()], C[CV(), CV()], C[CV(), CV() - 1] * F[0, CV()]),
  REST[FOR YR FROM 2022 TO 2024 INCREMENT 1, 2] = C[CV(), 2] - C[CV(), 2024 - CV(YR)]
)
ORDER BY YR, AGE;
