-- The line through four years of sales by least squares, and where it goes in the next two.
-- In row 0 stand where it starts and its slope.
CREATE TABLE SALES (T INT, AMT DECIMAL(2), PRIMARY KEY (T));
INSERT INTO SALES VALUES (1, 10.00), (2, 13.00), (3, 15.00), (4, 20.00);

SELECT T, Y, LINE, SLOPE
FROM SALES
MODEL
  DIMENSION BY (T)
  MEASURES (T X, AMT Y, T * AMT XY, T * T XX, CAST(NULL AS DECIMAL(2)) LINE, CAST(NULL AS DECIMAL(4)) SLOPE)
RULES (
  SLOPE[0] = (COUNT(X)[ANY] * SUM(XY)[ANY] - SUM(X)[ANY] * SUM(Y)[ANY])
    / (COUNT(X)[ANY] * SUM(XX)[ANY] - SUM(X)[ANY] * SUM(X)[ANY]),
  LINE[0] = (SUM(Y)[ANY] - SLOPE[0] * SUM(X)[ANY]) / COUNT(X)[ANY],
  LINE[FOR T FROM 1 TO 6 INCREMENT 1] = LINE[0] + SLOPE[0] * CV(T)
)
ORDER BY T;
