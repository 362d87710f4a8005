-- Declining depreciation: each year 40 % of what is left, or an equal part of it for the years to come once that is more.
CREATE TABLE ASSET (AGE INT, COST DECIMAL(2));
INSERT INTO ASSET VALUES (0, 1000.00);

SELECT AGE, D, BOOK
FROM ASSET
MODEL DIMENSION BY (AGE) MEASURES (COST BOOK, CAST(NULL AS DECIMAL(2)) D)
RULES AUTOMATIC ORDER (
  D[FOR AGE FROM 1 TO 5 INCREMENT 1] = CASE
    WHEN BOOK[CV() - 1] * 0.4 > BOOK[CV() - 1] / (6 - CV(AGE)) THEN BOOK[CV() - 1] * 0.4
    ELSE BOOK[CV() - 1] / (6 - CV(AGE))
  END,
  BOOK[FOR AGE FROM 1 TO 5 INCREMENT 1] = BOOK[CV() - 1] - D[CV()]
)
ORDER BY AGE;
