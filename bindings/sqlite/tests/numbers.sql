-- An INTEGER where the number is stored as a whole one of 64 bits, else a REAL.
SELECT typeof(n), n FROM (SELECT jb_number(jb('{"a":[7]}'), '$.a[0]') n);
--> integer|7
SELECT typeof(n), n FROM (SELECT jb_number(jb('-9223372036854775808'), '$') n);
--> integer|-9223372036854775808
SELECT typeof(n), n FROM (SELECT jb_number(jb('9223372036854775807'), '$') n);
--> integer|9223372036854775807
SELECT typeof(n), n FROM (SELECT jb_number(jb('9223372036854775808'), '$') n);
--> real|9.22337203685478e+18
SELECT typeof(n), n FROM (SELECT jb_number(jb('{"a":1.50}'), '$.a') n);
--> real|1.5
SELECT typeof(n), n FROM (SELECT jb_number(jb('2.00'), '$') n);
--> real|2.0
SELECT typeof(n), n FROM (SELECT jb_number(jb('-0.0'), '$') n);
--> real|0.0

-- Nothing is there, or no number.
SELECT jb_number(jb('{}'), '$.a'), jb_number(NULL, '$'), jb_number(jb('1'), NULL);
--> NULL|NULL|NULL
SELECT count(*), count(jb_number(document, '$'))
FROM jb_each(jb('[null,true,"5","",[5],{"a":5},[],{}]'));
--> 8|0
-- Extension values, of 20,000 days and of binary data.
SELECT jb_number(x'20000000600000051000004E20', '$'), jb_number(x'200000006000000300ABCD', '$');
--> NULL|NULL
SELECT jb_number(jb('1'), 'a');
--! jb_number: the text is not a path: 'a': did you mean '$.a'?
SELECT jb_number('1', '$');
--! jb_number: InvalidJsonb: a document is a BLOB
-- A stored double is no document.
SELECT jb_number(x'2000000020000009603FF8000000000000', '$');
--! jb_number: InvalidJsonb

-- The nearest double, as its whole number and the power of 2 that it is times. These are from exact
-- fractions. SQLite's own CAST misses the last bit of two of them.
SELECT ieee754(jb_number(jb('0.1'), '$')), ieee754(jb_number(jb('1.7'), '$'));
--> ieee754(3602879701896397,-55)|ieee754(7656119366529843,-52)
SELECT ieee754(jb_number(jb('-0.50'), '$')), ieee754(jb_number(jb('2.00'), '$'));
--> ieee754(-1,-1)|ieee754(2,0)
SELECT ieee754(jb_number(jb('17.61875476184'), '$')), ieee754(jb_number(jb('0.00000491'), '$'));
--> ieee754(4959238586259673,-48)|ieee754(5796704857722489,-70)
-- In the middle between two doubles, the even one; and next to the middle.
SELECT ieee754(jb_number(jb('9007199254740993.0'), '$'));
--> ieee754(4503599627370496,1)
SELECT ieee754(jb_number(jb('9007199254740995.0'), '$'));
--> ieee754(4503599627370498,1)
SELECT ieee754(jb_number(jb('9007199254740993.0000000000000000000001'), '$'));
--> ieee754(4503599627370497,1)
SELECT ieee754(jb_number(jb('-9007199254740992.9999999999999999999999'), '$'));
--> ieee754(-4503599627370496,1)
-- Whole numbers past 64 bits, up to the greatest and the least of 128.
SELECT ieee754(jb_number(jb('10000000000000000000000'), '$'));
--> ieee754(4768371582031250,21)
SELECT ieee754(jb_number(jb('9223372036854775808'), '$'));
--> ieee754(4503599627370496,11)
SELECT ieee754(jb_number(jb('-9223372036854775809'), '$'));
--> ieee754(-4503599627370496,11)
SELECT ieee754(jb_number(jb('18446744073709551615'), '$'));
--> ieee754(4503599627370496,12)
SELECT ieee754(jb_number(jb('18446744073709550592'), '$'));
--> ieee754(4503599627370496,12)
SELECT ieee754(jb_number(jb('18446744073709550591'), '$'));
--> ieee754(9007199254740991,11)
SELECT ieee754(jb_number(jb('170141183460469231731687303715884105727'), '$'));
--> ieee754(4503599627370496,75)
SELECT ieee754(jb_number(jb('-170141183460469231731687303715884105728'), '$'));
--> ieee754(-4503599627370496,75)
-- 255 digits after the point: the least number, the greatest digits, and two that are next to the
-- middle between two doubles.
SELECT ieee754(jb_number(jb('0.' || hex(zeroblob(127)) || '1'), '$'));
--> ieee754(2113178124542661,-898)
SELECT ieee754(jb_number(jb('-0.' || hex(zeroblob(108))
    || '170141183460469231731687303715884105727'), '$'));
--> ieee754(-2113178124542661,-771)
SELECT ieee754(jb_number(jb('0.' || hex(zeroblob(108)) || '0'
    || '12345678901234567241547823567765566360'), '$'));
--> ieee754(4906723803110861,-776)
SELECT ieee754(jb_number(jb('0.' || hex(zeroblob(108)) || '0'
    || '12345678901234567241547823567765566361'), '$'));
--> ieee754(2453361901555431,-775)

-- In a condition, by an index, and in an order.
CREATE TABLE person(name TEXT, doc BLOB);
INSERT INTO person VALUES ('Ada', jb('{"height":1.65}')), ('Bo', jb('{"height":1.8}')),
    ('Cy', jb('{}')), ('Di', jb('{"height":"2"}')), ('Ed', jb('{"height":2}')),
    ('Flo', jb('{"height":1.70}')), ('Gus', jb('{"height":10}'));
CREATE INDEX by_height ON person(jb_number(doc, '$.height'));
SELECT group_concat(name, ' ') FROM person NOT INDEXED WHERE jb_number(doc, '$.height') > 1.7;
--> Bo Ed Gus
EXPLAIN QUERY PLAN SELECT name FROM person WHERE jb_number(doc, '$.height') > 1.7;
--> QUERY PLAN
--> `--SEARCH person USING INDEX by_height (<expr>>?)
SELECT name, jb_number(doc, '$.height') FROM person WHERE jb_number(doc, '$.height') > 1.7;
--> Bo|1.8
--> Ed|2
--> Gus|10
EXPLAIN QUERY PLAN SELECT name FROM person WHERE jb_number(doc, '$.height') = 1.7;
--> QUERY PLAN
--> `--SEARCH person USING INDEX by_height (<expr>=?)
SELECT name FROM person WHERE jb_number(doc, '$.height') = 1.7;
--> Flo
SELECT group_concat(name, ' ') FROM (SELECT name FROM person
    WHERE jb_number(doc, '$.height') BETWEEN 1.65 AND 2 ORDER BY jb_number(doc, '$.height') DESC);
--> Ed Bo Flo Ada
SELECT sum(jb_number(doc, '$.height')), max(jb_number(doc, '$.height')) FROM person;
--> 17.15|10
PRAGMA integrity_check;
--> ok
-- Exactly, where the nearest doubles are the same.
SELECT jb_number(jb('0.1'), '$') = jb_number(jb('0.1000000000000000000001'), '$'),
    jb_compare('0.1', '0.1000000000000000000001');
--> 1|-1
