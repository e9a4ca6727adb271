-- Paths of SQL/JSON. Their answers are PostgreSQL's.
CREATE TABLE t(doc BLOB);
INSERT INTO t VALUES
    (jb('{"id":1,"lines":[{"price":3},{"price":5.50}],"note":"n/a","total":120}')),
    (jb('{"id":2,"lines":[],"note":null,"total":"n/a"}'));
SELECT jb_text(jb_query(doc, '$.lines[*].price')) FROM t;
--> [3,5.50]
--> []
SELECT jb_text(jb_query(doc, '$.lines[*] ? (@.price > 4)')) FROM t;
--> [{"price":5.50}]
--> []
SELECT jb_text(jb_query(doc, '$.lines.size() + $.id')), jb_text(jb_query(doc, '$.lines[last]')) FROM t;
--> [3]|[{"price":5.50}]
--> [2]|[]
SELECT jb_text(jb_query_first(doc, '$.lines[*].price')), jb_query_first(doc, '$.none') FROM t;
--> 3|NULL
--> NULL|NULL
SELECT jb_path_exists(doc, '$.lines[*]'), jb_path_exists(doc, '$.total ? (@ > 100)') FROM t;
--> 1|1
--> 0|0
SELECT jb_path_match(doc, '$.total > 100'), jb_path_match(doc, '$.note == null'),
    jb_path_match(doc, '$.note > 1') FROM t;
--> 1|0|NULL
--> NULL|1|0
SELECT jb_value(doc, '$.id') FROM t WHERE jb_path_match(doc, '$.lines[*].price >= 5.5');
--> 1

-- A row for each value.
SELECT key, value, kind FROM t, jb_each(jb_query(doc, '$.lines[*].price'));
--> 0|3|number
--> 1|5.50|number
SELECT sum(jb_number(document, '$')) FROM t, jb_each(jb_query(doc, '$.lines[*].price'));
--> 8.5

-- Variables are the members of an object, as a BLOB or as jb takes it.
SELECT jb_text(jb_query(doc, '$.lines[*].price ? (@ > $least)', '{"least": 4}')) FROM t;
--> [5.50]
--> []
SELECT jb_path_match(doc, '$.id == $id', jb_object('id', value)) FROM t, json_each('[1,2]');
--> 1
--> 0
--> 0
--> 1
SELECT jb_path_exists(jb('[1,2]'), '$[*] ? (@ == $"a b")', jb('{"a b":2}')),
    jb_path_exists(jb('[1,2]'), '$[*] ? (@ == $"a b")', jb('{"a b":3}'));
--> 1|0
SELECT jb_path_exists(jb('[1,2]'), '$[*] ? (@ == $x)', x'00');
--! jb_path_exists: InvalidJsonb
SELECT jb_path_match(doc, '$.id == $id') FROM t;
--! jb_path_match: UndefinedVariable: a variable of the path is not given
SELECT jb_path_match(doc, '$.id == $id', '{}', 1) FROM t;
--! jb_path_match: UndefinedVariable: a variable of the path is not given
SELECT jb_query(doc, '$', '[1]') FROM t;
--! jb_query: OtherKind: variables are an object
SELECT jb_query(doc, '$', '{"a"') FROM t;
--! jb_query: InvalidJson: expected ':' at byte 4, found the end
SELECT jb_query(doc, '$', 1.5) FROM t;
--! jb_query: BadNumber: a REAL is refused, pass decimals as TEXT

-- Errors give a path up, unless it is silent: then what came before is the answer.
SELECT jb_query(doc, 'strict $.none') FROM t;
--! jb_query: MemberNotFound: the path asks for a member that is not there
SELECT jb_text(jb_query(doc, 'strict $.none', '{}', 1)) FROM t;
--> []
--> []
SELECT jb_query(jb('[-1,"a"]'), '$[*].abs()');
--! jb_query: NonNumericItem: the path rounds what is no number
SELECT jb_text(jb_query(jb('[-1,"a"]'), '$[*].abs()', '{}', 1)),
    jb_text(jb_query_first(jb('[-1,"a"]'), '$[*].abs()', '{}', 1));
--> [1]|1
SELECT jb_path_exists(jb('[-1,"a"]'), '$[*].abs()'),
    jb_path_exists(jb('["a"]'), '$[*].abs()', '{}', 1);
--> 1|NULL
SELECT jb_path_exists(jb('["a"]'), '$[*].abs()');
--! jb_path_exists: NonNumericItem: the path rounds what is no number
SELECT jb_path_match(doc, '$.id') FROM t;
--! jb_path_match: BooleanRequired: the path gives no one boolean or null
SELECT jb_path_match(doc, '$.id', '{}', 1), jb_path_match(doc, '$.lines', '{}', 'x') FROM t;
--! jb_path_match: BooleanRequired: the path gives no one boolean or null
SELECT jb_path_match(doc, '$.id', '{}', 1) FROM t;
--> NULL
--> NULL

-- NULL gives NULL.
SELECT jb_query(NULL, '$'), jb_query(jb('1'), NULL), jb_query(jb('1'), '$', NULL),
    jb_query(jb('1'), '$', '{}', NULL), jb_path_match(NULL, '$'), jb_path_exists(NULL, '$'),
    jb_query_first(NULL, '$');
--> NULL|NULL|NULL|NULL|NULL|NULL|NULL

-- A refused text shows its place, also where no row is asked of it.
SELECT jb_query(doc, '$.id = 1') FROM t;
--! jb_query: the text is not a path:
--! $.id = 1
--!      ^ expected an operator, an accessor or the end at byte 5, found `=`; equal is `==`
SELECT jb_path_exists(jb('1'), '$.é[#-1]');
--! jb_path_exists: the text is not a path:
--! $.é[#-1]
--!     ^ expected a value at byte 5, found `#`
SELECT jb_query_first(jb('1'), '$.a / 2');
--! jb_query_first: the text is not a path:
--! $.a / 2
--!     ^ `/` at byte 4 is not read here
SELECT jb_path_match(jb('1'), '');
--! jb_path_match: the text is not a path:
--! 
--! ^ expected a value at byte 0, found the end
SELECT jb_query(doc, 5) FROM t;
--! jb_query: OtherKind: names and paths are TEXT
SELECT jb_query('{}', '$');
--! jb_query: InvalidJsonb: a document is a BLOB
SELECT jb_query(x'00', '$');
--! jb_query: InvalidJsonb
SELECT jb_path_match(x'00', '$ > 1');
--! jb_path_match: InvalidJsonb

-- A constant path is checked once, and one of a column for each row.
CREATE TABLE paths(path TEXT);
INSERT INTO paths VALUES ('$.id'), ('$.total'), ('$.lines.size()');
SELECT group_concat(jb_text(jb_query(doc, path)), ' ') FROM t, paths;
--> [1] [120] [2] [2] ["n/a"] [0]
CREATE INDEX by_dear ON t(jb_path_match(doc, '$.total > 100'));
SELECT jb_value(doc, '$.id') FROM t INDEXED BY by_dear
    WHERE jb_path_match(doc, '$.total > 100') = 1;
--> 1

-- How many steps a path may take: a product of two lengths, and of three.
CREATE TABLE long AS WITH n(i) AS (SELECT 1 UNION ALL SELECT i + 1 FROM n WHERE i < 2000)
SELECT jb_group_array(i) AS doc FROM n;
SELECT jb_length(jb_query(doc, '$[*] ? (@ > 1000)')),
    jb_length(jb_query(doc, '$.**')), jb_length(jb_query(doc, '$[*] ? (@ > 10 && @ < 20)'))
FROM long;
--> 1000|2001|9
SELECT jb_query(doc, '$[*] ? (@ > $[*])') FROM long;
--! jb_query: TooManySteps
SELECT jb_path_exists(doc, '$ ? (@[*] == $[*] && @[*] == $[*])') FROM long;
--! jb_path_exists: TooManySteps
SELECT jb_query(doc, '$[0,0][0,0][0,0][0,0][0,0][0,0][0,0][0,0][0,0][0,0][0,0][0,0][0,0][0,0]')
FROM long;
--! jb_query: TooManySteps
-- A view of a schema that somebody else made.
CREATE VIEW hostile AS SELECT jb_query(doc, '$[*] ? (@ > $[*])') AS answer FROM long;
PRAGMA trusted_schema = 0;
SELECT answer FROM hostile;
--! jb_query: TooManySteps
