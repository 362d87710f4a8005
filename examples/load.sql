-- The quarters of a year from sales.csv, which a spreadsheet has exported, and those of the next year. Run it in the folder of sales.csv.
CREATE TABLE SALES (PROD TEXT, YR INT, QTR INT, AMT DECIMAL(2), PRIMARY KEY (PROD, YR, QTR));
LOAD INTO SALES FROM 'sales.csv';
SELECT PROD, QTR, AMT FROM SALES ORDER BY PROD, QTR;

CREATE VIEW PLAN AS
SELECT PROD, QTR, S
FROM SALES
MODEL RETURN UPDATED ROWS
PARTITION BY (PROD) DIMENSION BY (YR, QTR) MEASURES (AMT S)
RULES (
  S[2025, FOR QTR FROM 1 TO 4 INCREMENT 1] = S[2024, CV(QTR)] * 1.04,
  S[2025, 0] = SUM(S)[2025, QTR > 0]
)
ORDER BY PROD, QTR;
SHOW PLAN;

-- The empty cell of the sheet is NULL, and so is what is worked out with it. Here its figure comes.
UPDATE SALES SET AMT = 125.00 WHERE AMT IS NULL;
SHOW PLAN;

-- The same file once more: its keys are there already. To read it anew, empty the table first.
LOAD INTO SALES FROM 'sales.csv';
DELETE FROM SALES;
LOAD INTO SALES FROM 'sales.csv';
