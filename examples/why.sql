-- The budget of two regions. The profit of the south is too good: where does it come from?
CREATE TABLE BUDGET (REGION TEXT, LINE TEXT, AMT DECIMAL(2), PRIMARY KEY (REGION, LINE));
INSERT INTO BUDGET VALUES
  ('north', 'sales', 900.00), ('north', 'returns', -50.00), ('north', 'wages', 400.00), ('north', 'rent', 120.00),
  ('south', 'sales', 700.00), ('south', 'returns', 35.00), ('south', 'wages', 300.00), ('south', 'rent', 90.00);

CREATE VIEW RESULT AS
SELECT REGION, LINE, AMT
FROM BUDGET
MODEL RETURN UPDATED ROWS PARTITION BY (REGION) DIMENSION BY (LINE) MEASURES (AMT)
RULES AUTOMATIC ORDER (
  AMT['profit'] = AMT['net sales'] - AMT['costs'],
  AMT['net sales'] = AMT['sales'] + AMT['returns'],
  AMT['costs'] = SUM(AMT)[LINE IN ('wages', 'rent')]
)
ORDER BY REGION, LINE;
SHOW RESULT;
EXPLAIN CELL RESULT.AMT PARTITION ('south') ['profit'];

-- The returns of the south have the wrong sign.
UPDATE BUDGET SET AMT = -35.00 WHERE REGION = 'south' AND LINE = 'returns';
EXPLAIN CELL RESULT.AMT PARTITION ('south') ['net sales'];
SHOW RESULT;
