CREATE EXTENSION rbbi;
SELECT alias, description FROM ts_token_type('rbbi') ORDER BY tokid;
SELECT alias, token FROM ts_parse('rbbi', 'I can''t pay 32.3 €, 日本 カタカナ, ไทย!')
    JOIN ts_token_type('rbbi') USING (tokid);
SELECT to_tsvector('rbbi', 'I can''t pay 32.3 €, 日本 カタカナ');
SELECT to_tsvector('rbbi_english', 'The foxes can''t be running, is 3,000.5 enough?');
-- Offsets and texts are whole: a headline changes nothing but the marks.
SELECT ts_headline('rbbi', 'Say:  "can''t"; 32.3%, then 日本.', to_tsquery('rbbi', 'can''t & 日 & 本'), 'HighlightAll=true');
SELECT string_agg(token, '' ORDER BY nth) = text AS is_whole
    FROM (VALUES (repeat('¡Qué 日本 a1_b, e.g. 3.2; ไทย — ', 2000))) AS given (text),
    LATERAL ts_parse('rbbi', text) WITH ORDINALITY AS parsed (tokid, token, nth) GROUP BY text;
SELECT count(*) FROM ts_parse('rbbi', '');
CREATE TABLE page (body text);
INSERT INTO page VALUES ('She can''t.'), ('He can.'), ('Nobody can’t 日本語');
CREATE INDEX ON page USING gin (to_tsvector('rbbi', body));
SELECT body FROM page WHERE to_tsvector('rbbi', body) @@ to_tsquery('rbbi', '''can''''t''') ORDER BY body;
DROP TABLE page;
-- A parse that is cancelled leaves the server well.
SET statement_timeout = '50ms';
SELECT count(*) FROM ts_parse('rbbi', repeat('a b ', 20000000));
RESET statement_timeout;
SELECT count(*) FROM ts_parse('rbbi', 'still here');
DROP EXTENSION rbbi CASCADE;
