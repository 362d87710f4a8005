-- Products by their sales: rank, share of all up to there, and class A up to 80 %, B up to 95 %, C for the rest.
CREATE TABLE SALES (PROD TEXT, AMT DECIMAL(2), PRIMARY KEY (PROD));
INSERT INTO SALES VALUES ('clip', 40.00), ('glue', 60.00), ('ink', 500.00), ('pad', 100.00), ('pen', 300.00);

SELECT RANK, PROD, S, UPTO, CLASS
FROM SALES
MODEL
  DIMENSION BY (PROD, AMT)
  MEASURES (AMT S, 0 RANK, CAST(NULL AS DECIMAL(1)) UPTO, '' CLASS)
RULES (
  RANK[ANY, ANY] = COUNT(S)[ANY, AMT > CV(AMT)] + 1,
  UPTO[ANY, ANY] = SUM(S)[ANY, AMT >= CV(AMT)] * 100 / SUM(S)[ANY, ANY],
  CLASS[ANY, ANY] = CASE WHEN UPTO[CV(), CV()] <= 80 THEN 'A' WHEN UPTO[CV(), CV()] <= 95 THEN 'B' ELSE 'C' END
)
ORDER BY RANK, PROD;
