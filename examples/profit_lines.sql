-- A profit statement whose lines are rows, and a plan for the next year. The formulas stand from the bottom line up;
-- LINES says where a line is printed.
CREATE TABLE BOOKS (LINE TEXT, YR INT, AMT DECIMAL(2), PRIMARY KEY (LINE, YR));
INSERT INTO BOOKS VALUES
  ('sales', 2024, 500.00), ('materials', 2024, 200.00), ('wages', 2024, 150.00), ('rent', 2024, 60.00);
CREATE TABLE LINES (LINE TEXT, NR INT, PRIMARY KEY (LINE));
INSERT INTO LINES VALUES
  ('sales', 1), ('materials', 2), ('gross', 3), ('wages', 4), ('rent', 5), ('profit', 6), ('tax', 7), ('net', 8);

SELECT YR, LINE, A
FROM BOOKS
MODEL
  REFERENCE L ON (SELECT LINE, NR FROM LINES) DIMENSION BY (LINE) MEASURES (NR)
  DIMENSION BY (LINE, YR) MEASURES (AMT A, CAST(NULL AS INT) N)
RULES AUTOMATIC ORDER (
  A['net', FOR YR IN (2024, 2025)] = A['profit', CV()] - A['tax', CV()],
  A['tax', FOR YR IN (2024, 2025)] = A['profit', CV()] * 0.25,
  A['profit', FOR YR IN (2024, 2025)] = A['gross', CV()] - A['wages', CV()] - A['rent', CV()],
  A['gross', FOR YR IN (2024, 2025)] = A['sales', CV()] - A['materials', CV()],
  A['rent', 2025] = A['rent', 2024],
  A['wages', 2025] = A['wages', 2024] * 1.04,
  A['materials', 2025] = A['sales', 2025] * A['materials', 2024] / A['sales', 2024],
  A['sales', 2025] = A['sales', 2024] * 1.1,
  N[ANY, ANY] = L.NR[CV(LINE)]
)
ORDER BY YR, N;
