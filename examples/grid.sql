-- A sheet of products and regions without holes, with a total of each row, of each column, and of all.
CREATE TABLE SALES (PROD TEXT, REGION TEXT, AMT DECIMAL(2), PRIMARY KEY (PROD, REGION));
INSERT INTO SALES VALUES ('ink', 'north', 40.00), ('ink', 'south', 60.00), ('pen', 'north', 20.00);

SELECT PROD, REGION, S
FROM SALES
MODEL DIMENSION BY (PROD, REGION) MEASURES (AMT S)
RULES UPSERT ALL (
  S[FOR PROD IN (SELECT PROD FROM SALES GROUP BY PROD), FOR REGION IN (SELECT REGION FROM SALES GROUP BY REGION)] =
    NVL(S[CV(), CV()], 0),
  S[ANY, '(all)'] = SUM(S)[CV(), ANY],
  S['(all)', ANY] = SUM(S)[ANY, CV()]
)
ORDER BY PROD, REGION;
