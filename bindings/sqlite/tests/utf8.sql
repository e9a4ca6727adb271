-- TEXT that is not UTF-8, which a database in UTF-16 cannot hold.
SELECT jb(CAST(x'22FF22' AS TEXT));
--! jb: InvalidUtf8
SELECT jb_compare('[]', CAST(x'22FF22' AS TEXT));
--! jb_compare: InvalidUtf8
SELECT jb_of(CAST(x'FF' AS TEXT));
--! jb_of: InvalidUtf8
SELECT jb_get(jb('{"a":1}'), CAST(x'FF' AS TEXT));
--! jb_get: InvalidUtf8
SELECT jb_at(jb('{"a":1}'), CAST(x'242EFF' AS TEXT));
--! jb_at: InvalidUtf8
SELECT jb_group_object(CAST(x'FF' AS TEXT), 1);
--! jb_group_object: InvalidUtf8
