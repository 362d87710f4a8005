-- The costs of units, each with those of all units under it, to any depth.
CREATE TABLE UNITS (UNIT TEXT, ABOVE TEXT, COST DECIMAL(2), PRIMARY KEY (UNIT));
INSERT INTO UNITS VALUES
  ('company', '', 0.00), ('north', 'company', 5.00), ('south', 'company', 0.00),
  ('bergen', 'north', 10.00), ('oslo', 'north', 20.00), ('rome', 'south', 30.00);

SELECT UNIT, OWN, TOTAL
FROM UNITS
MODEL DIMENSION BY (UNIT, ABOVE) MEASURES (COST OWN, CAST(NULL AS DECIMAL(2)) TOTAL)
RULES AUTOMATIC ORDER (
  TOTAL[ANY, ANY] = OWN[CV(), CV()] + NVL(SUM(TOTAL)[ANY, CV(UNIT)], 0)
)
ORDER BY UNIT;
