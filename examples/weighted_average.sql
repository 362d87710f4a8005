-- The average price of each product over its orders: plain, and weighted by the quantities.
CREATE TABLE ORDERS (NR INT, PROD TEXT, QTY INT, PRICE DECIMAL(2), PRIMARY KEY (NR));
INSERT INTO ORDERS VALUES
  (1, 'ink', 10, 5.00), (2, 'ink', 30, 4.00), (3, 'pen', 100, 1.00), (4, 'pen', 20, 1.30), (5, 'pen', 5, 1.60);

SELECT PROD, Q, V, P, W
FROM ORDERS
MODEL RETURN UPDATED ROWS
  PARTITION BY (PROD) DIMENSION BY (NR) MEASURES (QTY Q, QTY * PRICE V, PRICE P, CAST(NULL AS DECIMAL(2)) W)
RULES (
  P[0] = AVG(P)[NR > 0],
  Q[0] = SUM(Q)[NR > 0],
  V[0] = SUM(V)[NR > 0],
  W[0] = V[0] / Q[0]
)
ORDER BY PROD;
