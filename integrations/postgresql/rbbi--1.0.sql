\echo Use "CREATE EXTENSION rbbi" to load this file. \quit

CREATE FUNCTION rbbi_start(internal, int4) RETURNS internal
    AS 'MODULE_PATHNAME' LANGUAGE C STRICT;
CREATE FUNCTION rbbi_token(internal, internal, internal) RETURNS internal
    AS 'MODULE_PATHNAME' LANGUAGE C STRICT;
CREATE FUNCTION rbbi_end(internal) RETURNS void
    AS 'MODULE_PATHNAME' LANGUAGE C STRICT;
CREATE FUNCTION rbbi_lextype(internal) RETURNS internal
    AS 'MODULE_PATHNAME' LANGUAGE C STRICT;

CREATE TEXT SEARCH PARSER rbbi (
    START = rbbi_start,
    GETTOKEN = rbbi_token,
    END = rbbi_end,
    HEADLINE = prsd_headline,
    LEXTYPES = rbbi_lextype
);
COMMENT ON TEXT SEARCH PARSER rbbi IS 'words by Unicode''s rules (UAX #29)';

-- Any language: words as they are, in lower case.
CREATE TEXT SEARCH CONFIGURATION rbbi (PARSER = rbbi);
ALTER TEXT SEARCH CONFIGURATION rbbi
    ADD MAPPING FOR word, number, kana, ideograph WITH simple;

-- English: words by their stems, without stop words.
CREATE TEXT SEARCH CONFIGURATION rbbi_english (PARSER = rbbi);
ALTER TEXT SEARCH CONFIGURATION rbbi_english
    ADD MAPPING FOR word WITH english_stem;
ALTER TEXT SEARCH CONFIGURATION rbbi_english
    ADD MAPPING FOR number, kana, ideograph WITH simple;
