-- A table of two rows, and a query that computes two more.
CREATE TABLE T (D INT, M INT);
INSERT INTO T VALUES (1, 5), (2, 7);
SELECT D, M
FROM T
MODEL DIMENSION BY (D) MEASURES (M)
RULES (M[3] = M[1] + M[2], M[4] = M[3] - 1)
ORDER BY D;
