;; -- nothing; here
/* a; b
 c; */ CREATE TABLE T (A INT, B TEXT, -- key; next
  C DECIMAL(2), PRIMARY KEY (A)); INSERT INTO T VALUES
  (1, 'a;b', 1.50), (2, 'it''s -- no', NULL),
  (3, '', -0.25), (4, 'a|b, "c"', 7);;
SELECT * FROM T ORDER BY A;  /*/ ; */ SHOW NOPE;
SELECT A, T.B, C * 2 TWICE, NVL(C, 0) + A, C AS D
FROM T WHERE B <> ';';
Create View V As Select * From T Where A = 1 Model Partition By (B P) Dimension By (A) Measures (C, A + 1 N) (); show V; SELECT 1
/* ; never closed
