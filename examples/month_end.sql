-- The costs of two months, and their totals. At the month end some figures are put right: together, or not at all.
CREATE TABLE COSTS (MON INT, CENTRE TEXT, ITEM TEXT, AMT DECIMAL(2), PRIMARY KEY (MON, CENTRE, ITEM));
INSERT INTO COSTS VALUES
  (5, 'lab', 'gas', 310.00), (5, 'lab', 'rent', 900.00), (5, 'shop', 'rent', 600.00),
  (6, 'lab', 'gas', 290.00), (6, 'lab', 'rent', 900.00), (6, 'shop', 'power', 45.50), (6, 'shop', 'rent', 6000.00);

CREATE VIEW MONTHS AS
SELECT MON, CENTRE, S
FROM COSTS
GROUP BY MON, CENTRE
MODEL DIMENSION BY (MON, CENTRE) MEASURES (SUM(AMT) S)
RULES AUTOMATIC ORDER (S[FOR MON IN (5, 6), '(all)'] = SUM(S)[CV(), CENTRE <> '(all)'])
ORDER BY MON, CENTRE;
SHOW MONTHS;

BEGIN;
-- The gas of June was that of the shop.
UPDATE COSTS SET CENTRE = 'shop' WHERE MON = 6 AND CENTRE = 'lab' AND ITEM = 'gas';
-- The rent of the shop was typed with a zero too many.
UPDATE COSTS SET AMT = 600.00 WHERE MON = 6 AND CENTRE = 'shop' AND ITEM = 'rent';
-- A bill that came late; but whose was it?
INSERT INTO COSTS VALUES (6, 'shop', 'power', 52.00);
COMMIT;
SHOW MONTHS;

BEGIN;
UPDATE COSTS SET CENTRE = 'shop' WHERE MON = 6 AND CENTRE = 'lab' AND ITEM = 'gas';
UPDATE COSTS SET AMT = 600.00 WHERE MON = 6 AND CENTRE = 'shop' AND ITEM = 'rent';
INSERT INTO COSTS VALUES (6, 'lab', 'power', 52.00);
COMMIT;
SHOW MONTHS;
