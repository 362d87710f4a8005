-- A profit plan as on a spreadsheet: each line has its formula, and the formulas stand in no order.
CREATE TABLE BOOKS (YR INT, REVENUE DECIMAL(2), COST DECIMAL(2), PRIMARY KEY (YR));
INSERT INTO BOOKS VALUES (2023, 1000.00, 700.00), (2024, 1200.00, 780.00);

-- A fifth of what is left goes into the sales of the next year, and costs keep their share of 2024. So each year's
-- revenue waits for the last line of the year before, and every other line for the revenue.
CREATE VIEW SHEET AS
SELECT YR, REVENUE, COST, MARGIN, TAX, NET
FROM BOOKS
MODEL
  DIMENSION BY (YR)
  MEASURES (REVENUE, COST, CAST(NULL AS DECIMAL(2)) MARGIN, CAST(NULL AS DECIMAL(2)) TAX, CAST(NULL AS DECIMAL(2)) NET)
RULES AUTOMATIC ORDER (
  NET[FOR YR FROM 2023 TO 2027 INCREMENT 1] = MARGIN[CV()] - TAX[CV()],
  TAX[FOR YR FROM 2023 TO 2027 INCREMENT 1] = CASE WHEN MARGIN[CV()] > 0 THEN MARGIN[CV()] * 0.25 ELSE 0 END,
  MARGIN[FOR YR FROM 2023 TO 2027 INCREMENT 1] = REVENUE[CV()] - COST[CV()],
  COST[FOR YR FROM 2025 TO 2027 INCREMENT 1] = REVENUE[CV()] * COST[2024] / REVENUE[2024],
  REVENUE[FOR YR FROM 2025 TO 2027 INCREMENT 1] = REVENUE[CV() - 1] * 1.05 + NET[CV() - 1] * 0.2
)
ORDER BY YR;
SHOW SHEET;

-- The costs of 2024 were booked too low. The sheet follows.
UPDATE BOOKS SET COST = 900.00 WHERE YR = 2024;
SHOW SHEET;
