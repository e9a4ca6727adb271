-- What the members of all rows are, and the least type that holds them.
CREATE TABLE offer(doc);
INSERT INTO offer VALUES
    (jb('{"price": 1.50, "of": ["a", 7]}')), (jb('{"price": 2, "of": ["bcd", null]}')),
    (jb('{"price": null}')), (jb('{"of": []}')), (jb('[1]')), (NULL), (x''), (x'80');
SELECT jb_text(jb_survey(doc, '$.price')) FROM offer;
--> {"absent":4,"decimal64":1,"digits":3,"no_document":1,"null":1,"rows":8,"scales":[0,2],"type":"decimal 2","uint64":1}
SELECT jb_text(jb_survey(doc, '$.of[0]')) FROM offer WHERE jb_valid(doc);
--> {"absent":3,"length":3,"rows":5,"text":2,"type":"text"}
SELECT jb_text(jb_survey(doc, '$.of[#-1]')) FROM offer WHERE jb_valid(doc);
--> {"absent":3,"digits":1,"null":1,"rows":5,"scales":[0,0],"type":"int64","uint64":1}
SELECT jb_text(jb_survey(doc, '$')) FROM offer;
--> {"absent":2,"array":1,"no_document":1,"object":4,"rows":8,"type":"mixed"}
SELECT jb_text(jb_survey(doc, '$.sku')), jb_text(jb_survey(doc, NULL)) FROM offer
    WHERE jb_valid(doc);
--> {"absent":5,"rows":5,"type":"nothing"}|{"absent":5,"rows":5,"type":"nothing"}
SELECT jb_text(jb_survey(doc, '$.price')) FROM offer WHERE 0;
--> {"rows":0,"type":"nothing"}
SELECT jb_value(jb_survey(doc, '$.price'), '$.type') FROM offer;
--> decimal 2
SELECT jb_text(jb_survey(DISTINCT jb(column1), '$')) FROM (VALUES (1), (1), (2));
--! DISTINCT aggregates must have exactly one argument
SELECT jb_text(jb_survey(jb(column1), '$') FILTER (WHERE column1 > 1)) FROM (VALUES (1), (1), (2));
--> {"digits":1,"rows":1,"scales":[0,0],"type":"int64","uint64":1}

-- What each type holds, and what it does not.
SELECT jb_value(jb_survey(jb(column2), '$'), '$.type'), count(*) FROM (VALUES
    (1, '9223372036854775807'), (1, '-9223372036854775808'), (1, '2.00'), (1, 'null'),
    (2, '9223372036854775808'), (2, '0'), (2, '18446744073709551615.0'),
    (3, '-1'), (3, '18446744073709551615'), (4, '18446744073709551616'),
    (5, '0.5'), (5, '12345678901234567890123456789012345678'),
    (6, '0.5'), (6, '1234567890123456789012345678901234567'),
    (7, 'true'), (7, 'false'), (8, '"a"'), (8, '""'), (9, 'true'), (9, '1'), (10, '"1"'), (10, '1'),
    (11, '[]'), (12, '{}'), (13, 'null')) GROUP BY column1 ORDER BY column1;
--> int64|4
--> uint64|3
--> decimal 0|2
--> decimal 0|1
--> mixed|2
--> decimal 1|2
--> boolean|2
--> text|2
--> mixed|2
--> mixed|2
--> mixed|1
--> mixed|1
--> nothing|1
SELECT jb_text(jb_survey(x'20000000600000051000000001', '$'));
--> {"date":1,"rows":1,"type":"date"}
SELECT jb_text(jb_survey(jb_binary(x'00'), '$'));
--> {"binary":1,"rows":1,"type":"binary"}

-- A path is that of each row.
WITH RECURSIVE n(i) AS (VALUES (0) UNION ALL SELECT i + 1 FROM n WHERE i < 6)
SELECT jb_text(jb_survey(jb('["a", 1]'), '$[' || (i % 2) || ']')) FROM n;
--> {"digits":1,"length":1,"rows":7,"scales":[0,0],"text":4,"type":"mixed","uint64":3}

-- Many rows: each batch, and in groups. Rows that are longer than a batch.
CREATE TABLE measured AS
WITH RECURSIVE n(i) AS (VALUES (1) UNION ALL SELECT i + 1 FROM n WHERE i < 20000)
SELECT i, jb_object('n', i, 't', CASE i % 4 WHEN 0 THEN NULL WHEN 1 THEN CAST(i AS TEXT)
    WHEN 2 THEN jb('-0.25') ELSE jb('[]') END) AS doc FROM n;
SELECT jb_text(jb_survey(doc, '$.n')) FROM measured;
--> {"digits":5,"rows":20000,"scales":[0,0],"type":"int64","uint64":20000}
SELECT jb_text(jb_survey(doc, '$.t')) FROM measured;
--> {"array":5000,"decimal64":5000,"digits":2,"length":5,"null":5000,"rows":20000,"scales":[2,2],"text":5000,"type":"mixed"}
SELECT i % 4, jb_text(jb_survey(doc, '$.t')) FROM measured GROUP BY 1 ORDER BY 1;
--> 0|{"null":5000,"rows":5000,"type":"nothing"}
--> 1|{"length":5,"rows":5000,"text":5000,"type":"text"}
--> 2|{"decimal64":5000,"digits":2,"rows":5000,"scales":[2,2],"type":"decimal 2"}
--> 3|{"array":5000,"rows":5000,"type":"mixed"}
SELECT jb_text(jb_survey(jb_array(column1, hex(zeroblob(524288 * column1))), '$[1]'))
FROM (VALUES (1), (0), (1), (0), (1));
--> {"length":1048576,"rows":5,"text":5,"type":"text"}

SELECT jb_survey('{}', '$');
--! jb_survey: InvalidJsonb: a document is a BLOB
SELECT jb_survey(jb('{}'), 1);
--! jb_survey: OtherKind: names and paths are TEXT
SELECT jb_survey(doc, '$.*') FROM offer;
--! jb_survey: the text is not a path: '$.*'
SELECT jb_survey(doc, 'price') FROM offer;
--! jb_survey: the text is not a path: 'price': did you mean '$.price'?
