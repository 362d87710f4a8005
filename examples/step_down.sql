-- The canteen is handed on by heads, and then the computers, with their part of the canteen, by the desks of shop and works.
CREATE TABLE DEPTS (DEPT TEXT, COST DECIMAL(2), HEADS INT, DESKS INT, PRIMARY KEY (DEPT));
INSERT INTO DEPTS VALUES
  ('canteen', 100.00, 4, 0), ('computers', 60.00, 2, 0), ('shop', 200.00, 3, 3), ('works', 300.00, 5, 1);

SELECT DEPT, OWN, C
FROM DEPTS
MODEL DIMENSION BY (DEPT) MEASURES (COST OWN, COST C, HEADS, DESKS)
RULES (
  C[DEPT <> 'canteen'] = C[CV()] + C['canteen'] * HEADS[CV()] / SUM(HEADS)[DEPT <> 'canteen'],
  C['canteen'] = 0,
  C[DEPT IN ('shop', 'works')] = C[CV()] + C['computers'] * DESKS[CV()] / SUM(DESKS)[DEPT IN ('shop', 'works')],
  C['computers'] = 0,
  OWN['(all)'] = SUM(OWN)[ANY],
  C['(all)'] = SUM(C)[ANY]
)
ORDER BY DEPT;
