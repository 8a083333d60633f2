/*
 * A text search parser for PostgreSQL: the words of a text by librbbi (UAX #29).
 *
 * Each part of the text is in one token, so a headline gives it back unchanged. A word is a segment with a
 * letter or a digit of any script; what lies between words is one token of type `other`. The numbers of
 * the types are those of PostgreSQL's own parser that its headline function treats alike.
 *
 * A process loads the table once. A call of the library holds nothing when it returns, and no error is
 * raised before that; what a parse keeps is in PostgreSQL's memory contexts. So a cancelled query or a
 * refused allocation leaves nothing behind.
 */
#include "postgres.h"

#include "fmgr.h"
#include "mb/pg_wchar.h"
#include "miscadmin.h"
#include "tsearch/ts_public.h"

#include <rbbi.h>

PG_MODULE_MAGIC;

/* The types of tokens, by number. */
enum { WORD = 2, KANA = 9, IDEOGRAPH = 10, OTHER = 12, NUMBER = 22 };

/* How many words are asked for at once. */
enum { ROOM = 256 };

/* A parse of a text: the words that were asked for, and how far the tokens are. */
typedef struct Parse
{
	const char *text;
	size_t		length;
	size_t		at;			/* where the next token begins */
	uint64_t	resume;		/* where the next call of the library goes on */
	bool		is_more;	/* whether there may be more words */
	size_t		next;		/* the word that is given next */
	size_t		count;		/* how many words were asked for */
	uint64_t	starts[ROOM];
	uint64_t	ends[ROOM];
	uint32_t	statuses[ROOM];
} Parse;

static rbbi_table words = RBBI_INIT;

/* Raises an error that says what the library answered. */
static void
refuse(int answer)
{
	if (answer == RBBI_MEMORY)
		ereport(ERROR, (errcode(ERRCODE_OUT_OF_MEMORY), errmsg("out of memory")));
	ereport(ERROR, (errcode(ERRCODE_INTERNAL_ERROR), errmsg("rbbi: %s", rbbi_message(answer))));
}

PG_FUNCTION_INFO_V1(rbbi_start);
Datum
rbbi_start(PG_FUNCTION_ARGS)
{
	Parse	   *parse;
	int			answer;

	if (GetDatabaseEncoding() != PG_UTF8)
		ereport(ERROR,
				(errcode(ERRCODE_FEATURE_NOT_SUPPORTED),
				 errmsg("the text search parser \"rbbi\" needs a database with the encoding UTF8"),
				 errdetail("The encoding of this database is %s.", GetDatabaseEncodingName())));
	if (words.held == NULL && (answer = rbbi_table_named(&words, "word")) != RBBI_OK)
		refuse(answer);
	parse = palloc0(sizeof(Parse));
	parse->text = (const char *) PG_GETARG_POINTER(0);
	parse->length = (size_t) PG_GETARG_INT32(1);
	parse->is_more = parse->length > 0;
	PG_RETURN_POINTER(parse);
}

/* Asks for more words, once those that were given are used up. */
static void
fill(Parse *parse)
{
	while (parse->next == parse->count && parse->is_more)
	{
		int			answer = rbbi_words(&words, parse->text, parse->length, parse->resume,
										parse->starts, parse->ends, parse->statuses, ROOM,
										&parse->count, &parse->resume);

		if (answer != RBBI_OK && answer != RBBI_ROOM)
			refuse(answer);
		parse->next = 0;
		parse->is_more = answer == RBBI_ROOM;
		CHECK_FOR_INTERRUPTS();
	}
}

static int
type_of(uint32_t status)
{
	return status == 100 ? NUMBER : status == 300 ? KANA : status == 400 ? IDEOGRAPH : WORD;
}

PG_FUNCTION_INFO_V1(rbbi_token);
Datum
rbbi_token(PG_FUNCTION_ARGS)
{
	Parse	   *parse = (Parse *) PG_GETARG_POINTER(0);
	char	  **token = (char **) PG_GETARG_POINTER(1);
	int		   *length = (int *) PG_GETARG_POINTER(2);
	size_t		end;
	int			type = OTHER;

	fill(parse);
	if (parse->at == parse->length)
		PG_RETURN_INT32(0);
	if (parse->next == parse->count)
		end = parse->length;
	else if (parse->at < parse->starts[parse->next])
		end = parse->starts[parse->next];
	else
	{
		end = parse->ends[parse->next];
		type = type_of(parse->statuses[parse->next]);
		parse->next++;
	}
	*token = (char *) parse->text + parse->at;
	*length = (int) (end - parse->at);
	parse->at = end;
	PG_RETURN_INT32(type);
}

PG_FUNCTION_INFO_V1(rbbi_end);
Datum
rbbi_end(PG_FUNCTION_ARGS)
{
	pfree(PG_GETARG_POINTER(0));
	PG_RETURN_VOID();
}

PG_FUNCTION_INFO_V1(rbbi_lextype);
Datum
rbbi_lextype(PG_FUNCTION_ARGS)
{
	static const struct
	{
		int			id;
		const char *alias,
				   *description;
	}			types[] = {
		{WORD, "word", "Word with a letter"},
		{NUMBER, "number", "Number"},
		{KANA, "kana", "Katakana"},
		{IDEOGRAPH, "ideograph", "Ideograph"},
		{OTHER, "other", "Space and symbols"},
	};
	LexDescr   *list = palloc0(sizeof(LexDescr) * (lengthof(types) + 1));

	for (size_t at = 0; at < lengthof(types); at++)
	{
		list[at].lexid = types[at].id;
		list[at].alias = pstrdup(types[at].alias);
		list[at].descr = pstrdup(types[at].description);
	}
	PG_RETURN_POINTER(list);
}
