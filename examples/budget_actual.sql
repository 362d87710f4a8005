-- Actual against budget, and how much of the difference comes from quantities and how much from prices.
CREATE TABLE FIGURES (PROD TEXT, SORT TEXT, QTY INT, PRICE DECIMAL(2), PRIMARY KEY (PROD, SORT));
INSERT INTO FIGURES VALUES
  ('ink', 'budget', 100, 5.00), ('ink', 'actual', 110, 4.80), ('pen', 'budget', 200, 2.00), ('pen', 'actual', 190, 2.10);

SELECT PROD, SORT, Q, P, A
FROM FIGURES
MODEL PARTITION BY (PROD) DIMENSION BY (SORT) MEASURES (QTY Q, PRICE P, QTY * PRICE A)
RULES (
  A['difference'] = A['actual'] - A['budget'],
  A['of prices'] = Q['actual'] * (P['actual'] - P['budget']),
  A['of quantities'] = (Q['actual'] - Q['budget']) * P['budget']
)
ORDER BY PROD, SORT;
