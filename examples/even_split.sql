-- 100.00 is split by heads. Parts that are rounded one by one may miss the whole by a cent;
-- differences of a running sum that is rounded never do.
CREATE TABLE TEAMS (TEAM TEXT, HEADS INT, PRIMARY KEY (TEAM));
INSERT INTO TEAMS VALUES ('design', 1), ('legal', 1), ('sales', 1), ('works', 3);

SELECT TEAM, HEADS, ROUNDED, PART
FROM TEAMS
MODEL
  DIMENSION BY (TEAM)
  MEASURES (HEADS, CAST(NULL AS DECIMAL(2)) ROUNDED, CAST(NULL AS DECIMAL(2)) UPTO, CAST(NULL AS DECIMAL(2)) PART)
RULES (
  ROUNDED[ANY] = 100 * HEADS[CV()] / SUM(HEADS)[ANY],
  UPTO[ANY] = 100 * SUM(HEADS)[TEAM <= CV(TEAM)] / SUM(HEADS)[ANY],
  PART[ANY] = UPTO[CV()] - NVL(MAX(UPTO)[TEAM < CV(TEAM)], 0),
  ROUNDED['(all)'] = SUM(ROUNDED)[ANY],
  PART['(all)'] = SUM(PART)[ANY]
)
ORDER BY TEAM;
