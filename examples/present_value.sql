-- The present value of two projects at 10 % a year, added up from year to year:
-- the last row of a project has its net present value.
CREATE TABLE FLOWS (PROJ TEXT, YR INT, AMT DECIMAL(2), PRIMARY KEY (PROJ, YR));
INSERT INTO FLOWS VALUES
  ('shop', 0, -1000.00), ('shop', 1, 500.00), ('shop', 2, 400.00), ('shop', 3, 300.00),
  ('mill', 0, -1000.00), ('mill', 3, 1400.00);

SELECT PROJ, YR, C, F, PV, NPV
FROM FLOWS
MODEL IGNORE NAV
  PARTITION BY (PROJ) DIMENSION BY (YR)
  MEASURES (AMT C, CAST(NULL AS DECIMAL(6)) F, CAST(NULL AS DECIMAL(2)) PV, CAST(NULL AS DECIMAL(2)) NPV)
RULES (
  F[0] = 1,
  F[FOR YR FROM 1 TO 3 INCREMENT 1] = F[CV() - 1] / 1.1,
  PV[ANY] = C[CV()] * F[CV()],
  NPV[ANY] = SUM(PV)[YR <= CV(YR)]
)
ORDER BY PROJ, YR;
