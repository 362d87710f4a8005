-- Of the sales of a month half is paid at once, 30 % a month later and 20 % after two:
-- the cash of five months, and what is still open.
CREATE TABLE SALES (MON INT, AMT DECIMAL(2), PRIMARY KEY (MON));
INSERT INTO SALES VALUES (1, 100.00), (2, 200.00), (3, 160.00);

SELECT MON, S, CASH, STILL
FROM SALES
MODEL IGNORE NAV
  DIMENSION BY (MON)
  MEASURES (AMT S, CAST(NULL AS DECIMAL(2)) CASH, CAST(NULL AS DECIMAL(2)) STILL)
RULES (
  CASH[FOR MON FROM 1 TO 5 INCREMENT 1] = S[CV()] * 0.5 + S[CV() - 1] * 0.3 + S[CV() - 2] * 0.2,
  STILL[FOR MON FROM 1 TO 5 INCREMENT 1] = STILL[CV() - 1] + S[CV()] - CASH[CV()]
)
ORDER BY MON;
