SELECT doc FROM ROWS ORDER BY doc;
SELECT doc FROM ROWS ORDER BY doc DESC LIMIT 100;
SELECT doc -> 'id' FROM ROWS ORDER BY doc -> 'id';
SELECT doc -> 'price', doc -> 'id' FROM ROWS ORDER BY doc -> 'price' DESC, doc -> 'id' LIMIT 1000;
SELECT doc FROM ROWS WHERE doc -> 'id' = '777.0';
SELECT count(*) FROM ROWS WHERE doc < '{"city":"city 300"}';
SELECT count(*), min(doc), max(doc) FROM ROWS WHERE doc -> 'price' BETWEEN '100' AND '200.5';
SELECT count(*) FROM ROWS WHERE doc #> '{tags,-1}' IN ('"t3"', '"t5"') AND doc -> 'id' < '1000';
SELECT count(*) FROM ROWS WHERE doc -> 'tags' -> 1 = '"t3"' AND NOT doc -> 'seen' = 'null';
SELECT count(*) FROM ROWS WHERE doc ->> 'city' LIKE 'city 7%' AND doc ->> 'seen' IS NULL;
SELECT count(*) FROM ROWS WHERE doc @> '{"tags": ["t7"]}' AND (doc -> 'price')::numeric > 500.5;
SELECT count(*) FROM ROWS WHERE doc @? '$.tags[*] ? (@ == "t7")';
SELECT count(*) FROM ROWS WHERE doc ? 'city' AND doc['tags'][1] = '"t7"';
SELECT doc -> 'city', count(*), min(doc -> 'price'), max(doc -> 'id')
    FROM ROWS GROUP BY 1 ORDER BY 1;
SELECT doc ->> 'city', sum((doc -> 'price')::numeric) FROM ROWS GROUP BY 1 ORDER BY 1;
SELECT DISTINCT doc -> 'price' FROM ROWS ORDER BY 1;
SELECT min(doc -> 'price'), max(doc -> 'price'), max(doc -> 'none') FROM ROWS;
SELECT kohiblad_length(kohiblad_agg(doc)), count(DISTINCT doc -> 'city') FROM ROWS;
SELECT count(*) FROM ROWS a JOIN here b ON a.doc -> 'id' = b.doc -> 'price';
SELECT doc -> 'city', count(*), max(doc -> 'price') FROM ROWS
    GROUP BY 1 HAVING count(*) > 1 ORDER BY 3 DESC, 1 LIMIT 20;
SELECT * FROM cities
    WHERE EXISTS (SELECT FROM ROWS WHERE doc -> 'city' = city AND doc -> 'id' < '500')
    ORDER BY city;
