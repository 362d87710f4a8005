-- Each quarter against the same quarter of the year before: the difference, and what it is in percent.
CREATE TABLE SALES (YR INT, QTR INT, AMT DECIMAL(2), PRIMARY KEY (YR, QTR));
INSERT INTO SALES VALUES
  (2023, 1, 80.00), (2023, 2, 100.00), (2024, 1, 92.00), (2024, 2, 90.00), (2025, 1, 96.60);

SELECT QTR, YR, S, D, PCT
FROM SALES
MODEL
  PARTITION BY (QTR) DIMENSION BY (YR)
  MEASURES (AMT S, CAST(NULL AS DECIMAL(2)) D, CAST(NULL AS DECIMAL(1)) PCT)
RULES (
  D[ANY] = S[CV()] - S[CV() - 1],
  PCT[ANY] = D[CV()] * 100 / S[CV() - 1]
)
ORDER BY QTR, YR;
