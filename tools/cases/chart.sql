CREATE TABLE P (Q TEXT, T INT, N INT);
INSERT INTO P VALUES ('a', 1, 0), ('a', 2, 5), ('a', 3, 10), ('b<c', 2, 10), ('b<c', 3, NULL), ('b<c', 1, 2);
SELECT T, Q, N FROM P;
SELECT Q || T NAME, N - 6 LESS FROM P WHERE N > 2 AND Q = 'a';
