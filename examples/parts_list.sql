-- What ten carts take: each row is a part of a whole, and how many of it are in one. Parts have parts, to any depth.
CREATE TABLE PARTS (WHOLE TEXT, PART TEXT, N INT, PRIMARY KEY (WHOLE, PART));
INSERT INTO PARTS VALUES
  ('order', 'cart', 10), ('cart', 'wheel', 2), ('cart', 'box', 1),
  ('wheel', 'spoke', 8), ('wheel', 'screw', 4), ('box', 'screw', 12);

SELECT WHOLE, PART, NEED
FROM PARTS
MODEL DIMENSION BY (WHOLE, PART) MEASURES (N, 0 NEED)
RULES AUTOMATIC ORDER (
  NEED['in all', 'screw'] = SUM(NEED)[WHOLE <> 'in all', 'screw'],
  NEED[WHOLE <> 'in all', ANY] = N[CV(), CV()] * NVL(SUM(NEED)[WHOLE <> 'in all', CV(WHOLE)], 1)
)
ORDER BY WHOLE, PART;
