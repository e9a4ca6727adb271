-- How many steps jb_contains may take: 20,000,000. These take a product of two lengths.
CREATE TABLE arrays AS WITH n(i) AS (SELECT 1 UNION ALL SELECT i + 1 FROM n WHERE i < 5000)
SELECT jb_concat(jb_group_array(jb('[0]')), '[[1]]') AS long, jb_group_array(jb('[1]')) AS ones
FROM n;
SELECT jb_contains(long, ones) FROM arrays;
--! jb_contains: TooManySteps
SELECT jb_contains(jb_object('a', long), jb_object('a', ones)) FROM arrays;
--! jb_contains: TooManySteps
-- A view of a schema that somebody else made.
CREATE VIEW hostile AS SELECT jb_contains(long, ones) AS answer FROM arrays;
PRAGMA trusted_schema = 0;
SELECT answer FROM hostile;
--! jb_contains: TooManySteps
-- One side may be long: a step for each pair.
SELECT jb_contains(long, '[[1],[0],[1]]'), jb_contains('[[1],[0]]', ones),
jb_contains(long, '[[2]]') FROM arrays;
--> 1|1|0
-- Scalars are looked for by a sort.
WITH n(i) AS (SELECT 1 UNION ALL SELECT i + 1 FROM n WHERE i < 5000)
SELECT jb_contains(jb_group_array(i), jb_group_array(i)) FROM n;
--> 1
