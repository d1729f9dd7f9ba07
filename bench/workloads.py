"""The workloads: what each runs, at which sizes, and what its replies must be."""
import random

HEAD = '[["_id","UInt32"],["_key","ShortText"]]'
KEY_HEAD = '[["_key","ShortText"]]'
DONE = "[[0],true]"


class Case:
    """One run: its files by name, the words behind the program's name, and the replies that it must give."""

    def __init__(self, files, replies, words=None):
        self.files = files
        self.words = list(files) if words is None else words
        self.replies = replies

    def wrong(self, out):
        """Says what is wrong with what was printed, or nothing."""
        got = out.decode("utf-8", "replace").splitlines()
        if len(got) != len(self.replies):
            return "%d replies in place of %d" % (len(got), len(self.replies))
        for place, (line, wanted) in enumerate(zip(got, self.replies)):
            if line != wanted:
                return "reply %d is %s in place of %s" % (place + 1, line[:80], wanted[:80])
        return None


class Workload:
    """A named family of cases, one for each size; `needs` names what the program must be able to do."""

    def __init__(self, name, says, sizes, quick, needs, make):
        self.name, self.says, self.sizes, self.quick, self.needs, self.make = name, says, sizes, quick, needs, make


def loaded(count):
    return "[[0],%d]" % count


def shown(found, head, rows=()):
    return "[[0],[[[%d],%s%s]]]" % (found, head, "".join("," + row for row in rows))


def load(table, rows):
    """A load whose rows stand on lines of their own."""
    return "load --table %s\n[\n%s\n]\n" % (table, ",\n".join(rows))


# Each capability by a text, and the beginning of its last reply where the program has it.
CAPABILITIES = {
    "loads on following lines": ("table_create P TABLE_HASH_KEY ShortText\nload --table P\n[\n{\"_key\":\"a\"}\n]\n", "[[0],1]"),
    "columns": ("table_create P TABLE_HASH_KEY ShortText\ncolumn_create P n COLUMN_SCALAR Int32\n", DONE),
    "filters": ("table_create P TABLE_HASH_KEY ShortText\nselect P --filter true\n", "[[0],"),
    "output columns": ("table_create P TABLE_HASH_KEY ShortText\nselect P --limit 0 --output_columns _key\n", "[[0],"),
    "lexicons": ("table_create L TABLE_PAT_KEY ShortText --default_tokenizer TokenDelimit\n", DONE),
    "queries": ("table_create P TABLE_HASH_KEY ShortText\nselect P --match_columns _key --query a\n", "[[0],"),
    "drilldown": ("table_create P TABLE_HASH_KEY ShortText\nselect P --drilldown _key\n", "[[0],"),
    "delete": ("table_create P TABLE_HASH_KEY ShortText\nload --table P --values '[{\"_key\":\"a\"}]'\ndelete P a\n", DONE),
    "dump": ("table_create P TABLE_HASH_KEY ShortText\ndump\n", "table_create P"),
}


def one_table(size):
    return Case({"a.grn": "table_create P TABLE_HASH_KEY ShortText\n"}, [DONE])


def tables(size):
    lines = ["table_create T%d TABLE_HASH_KEY ShortText" % i for i in range(size)]
    return Case({"a.grn": "\n".join(lines) + "\n"}, [DONE] * size)


def refused_lines(size):
    return Case({"a.grn": "nonsense\n" * size}, ['[[4,"UnknownCommand nonsense"],false]'] * size)


def keys_in_one_load(size):
    rows = ",".join('{"_key":"k%d"}' % i for i in range(1, size + 1))
    text = "table_create P TABLE_HASH_KEY ShortText\nload --table P --values '[%s]'\nselect P\n" % rows
    first = ['[%d,"k%d"]' % (i, i) for i in range(1, min(size, 10) + 1)]
    return Case({"a.grn": text}, [DONE, loaded(size), shown(size, HEAD, first)])


def five_columns(size):
    """One load of records with a key, a reference, two numbers and a text of 40 bytes; how many there are, and one window."""
    schema = "table_create G TABLE_HASH_KEY ShortText\ntable_create R TABLE_HASH_KEY ShortText\n" \
        "column_create R g COLUMN_SCALAR G\ncolumn_create R a COLUMN_SCALAR Int32\n" \
        "column_create R b COLUMN_SCALAR Int64\ncolumn_create R t COLUMN_SCALAR ShortText\n"
    rows = ['{"_key":"r%d","g":"g%d","a":%d,"b":%d,"t":"%040d"}' % (i, i % 7, i * i % 1000, i * 1000003, i) for i in range(size)]
    last = size - 1
    window = "select R --output_columns _id,_key,g,a,b,t --offset -1\nselect R --limit 0 --output_columns _key\n"
    head = '[["_id","UInt32"],["_key","ShortText"],["g","G"],["a","Int32"],["b","Int64"],["t","ShortText"]]'
    row = '[%d,"r%d","g%d",%d,%d,"%040d"]' % (size, last, last % 7, last * last % 1000, last * 1000003, last)
    return Case({"a.grn": schema + load("R", rows) + window}, [DONE] * 6 + [loaded(size), shown(size, head, [row]), shown(size, KEY_HEAD)])


def loads_of_one_record(size):
    lines = ["load --table P --values '[{\"_key\":\"k%d\"}]'" % i for i in range(size)]
    text = "table_create P TABLE_HASH_KEY ShortText\n" + "\n".join(lines) + "\n"
    return Case({"a.grn": text}, [DONE] + [loaded(1)] * size)


RECORD_SCHEMA = """table_create Grp TABLE_HASH_KEY ShortText
table_create Rec TABLE_PAT_KEY ShortText
column_create Rec grp COLUMN_SCALAR Grp
column_create Rec n COLUMN_SCALAR Int32
column_create Rec text COLUMN_SCALAR Text
table_create Words TABLE_HASH_KEY ShortText --default_tokenizer TokenDelimit
column_create Words idx COLUMN_INDEX|WITH_POSITION Rec text
"""


def record(i):
    words = (i % 10, i // 10 % 10, i * i % 10)
    return '{"_key":"r%d","grp":"g%d","n":%d,"text":"w%d w%d w%d"}' % ((i, i % 7, i * i % 1000) + words)


def grouped_records(size):
    """Records with a reference, a number and an indexed text; a select each by key, phrase, filter with drilldown, and word."""
    texts = {i: "w%d w%d w%d" % (i % 10, i // 10 % 10, i * i % 10) for i in range(1, size + 1)}
    phrase = sum("w1 w0" in text for text in texts.values())
    above = [i for i in texts if i * i % 1000 >= 100]
    groups = sorted({i % 7 for i in above})
    rows = ["[\"g%d\",%d]" % (g, sum(i % 7 == g for i in above)) for g in groups]
    text = (RECORD_SCHEMA + load("Rec", [record(i) for i in texts])
            + "select Rec --limit 0 --output_columns _key\n"
            + "select Rec --match_columns text --query '\"w1 w0\"' --limit 0 --output_columns _key\n"
            + "select Rec --filter 'n >= 100' --limit 0 --output_columns _key --drilldown grp --drilldown_sort_keys _key\n")
    key = KEY_HEAD
    drilled = '[[0],[[[%d],%s],[[%d],[["_key","ShortText"],["_nsubrecs","Int32"]],%s]]]' % (
        len(above), key, len(rows), ",".join(rows))
    return Case({"a.grn": text}, [DONE] * 7 + [loaded(size), shown(size, key), shown(phrase, key), drilled])


def one_word_records(size):
    """Records of one word each, and five searches for each record's word."""
    schema = """table_create D TABLE_HASH_KEY ShortText
column_create D t COLUMN_SCALAR Text
table_create W TABLE_HASH_KEY ShortText --default_tokenizer TokenDelimit
column_create W idx COLUMN_INDEX D t
"""
    rows = ['{"_key":"r%d","t":"w%d"}' % (i, i) for i in range(1, size + 1)]
    searches = "".join("select D --query t:@w%d --limit 0 --output_columns _key\n" % (j % size + 1) for j in range(5 * size))
    found = shown(1, KEY_HEAD)
    return Case({"a.grn": schema + load("D", rows) + searches}, [DONE] * 4 + [loaded(size)] + [found] * (5 * size))


def zipf_words(size, chosen):
    """Texts of 60 words drawn by Zipf's law over 10,000 words."""
    ranks = range(1, 10001)
    weights = [1.0 / rank for rank in ranks]
    return [["w%d" % rank for rank in chosen.choices(ranks, weights, k=60)] for _ in range(size)]


def long_texts(tokenizer):
    def make(size):
        chosen = random.Random(19)
        texts = zipf_words(size, chosen)
        schema = "table_create D TABLE_HASH_KEY ShortText\ncolumn_create D t COLUMN_SCALAR Text\n" \
            "table_create W TABLE_PAT_KEY ShortText --default_tokenizer %s\ncolumn_create W idx COLUMN_INDEX|WITH_POSITION D t\n" % tokenizer
        rows = ['{"_key":"r%d","t":"%s"}' % (i, " ".join(words)) for i, words in enumerate(texts)]
        lines, replies = [], []
        for _ in range(max(size // 4, 1)):
            words = chosen.choice(texts)
            place = chosen.randrange(57)
            phrase = " ".join(words[place:place + chosen.choice((1, 2, 3))])
            found = sum(count_phrase(text, phrase, tokenizer) for text in texts)
            lines.append("select D --match_columns t --query '\"%s\"' --limit 0 --output_columns _key" % phrase)
            replies.append(shown(found, KEY_HEAD))
        text = schema + load("D", rows) + "\n".join(lines) + "\n"
        return Case({"a.grn": text}, [DONE] * 4 + [loaded(size)] + replies)
    return make


def count_phrase(words, phrase, tokenizer):
    """Whether the phrase stands in a text, by whole words or by characters."""
    if tokenizer == "TokenBigram":
        return phrase in " ".join(words)
    return " %s " % phrase in " %s " % " ".join(words)


def ranges(size):
    """Records of two numbers, and range filters over them."""
    chosen = random.Random(7)
    numbers = [(chosen.randrange(1000), chosen.randrange(1000000)) for _ in range(size)]
    schema = "table_create N TABLE_HASH_KEY ShortText\ncolumn_create N a COLUMN_SCALAR Int32\ncolumn_create N b COLUMN_SCALAR Int64\n"
    rows = ['{"_key":"r%d","a":%d,"b":%d}' % ((i,) + pair) for i, pair in enumerate(numbers)]
    lines, replies = [], []
    for _ in range(max(size // 100, 1)):
        low = chosen.randrange(990)
        found = sum(low <= a < low + 10 for a, _ in numbers)
        lines.append("select N --filter 'a >= %d && a < %d' --limit 0 --output_columns _key" % (low, low + 10))
        replies.append(shown(found, KEY_HEAD))
    text = schema + load("N", rows) + "\n".join(lines) + "\n"
    return Case({"a.grn": text}, [DONE] * 3 + [loaded(size)] + replies)


def updates(size):
    """One record whose indexed text is set again and again."""
    schema = "table_create D TABLE_HASH_KEY ShortText\ncolumn_create D t COLUMN_SCALAR Text\n" \
        "table_create W TABLE_HASH_KEY ShortText --default_tokenizer TokenDelimit\ncolumn_create W idx COLUMN_INDEX D t\n"
    rows = ['{"_key":"a","t":"w%d w%d"}' % (i % 100, i) for i in range(size)]
    search = "select D --query t:@w%d --limit 0 --output_columns _key\n"
    text = schema + load("D", rows) + search % (size - 1) + search % (size + 1)
    key = KEY_HEAD
    return Case({"a.grn": text}, [DONE] * 4 + [loaded(size), shown(1, key), shown(0, key)])


def dumped(size):
    """A dump of records with two columns."""
    schema = "table_create P TABLE_HASH_KEY ShortText\ncolumn_create P n COLUMN_SCALAR Int32\ncolumn_create P s COLUMN_SCALAR ShortText\n"
    rows = ['["r%d",%d,"text %d"]' % (i, i, i) for i in range(size)]
    body = "load --table P\n[\n" + ",\n".join(['["_key","n","s"]'] + rows) + "\n]\n"
    return Case({"a.grn": schema + body + "dump\n"}, [DONE] * 3 + [loaded(size)] + (schema + body).splitlines())


KEYS = ["loads on following lines", "output columns"]
RECORDS = KEYS + ["columns", "lexicons", "queries", "filters", "drilldown"]
SEARCHES = KEYS + ["columns", "lexicons", "queries"]

WORKLOADS = [
    Workload("one table", "the program starts and makes one table", [1], [1], [], one_table),
    Workload("tables", "tables are made", [1000, 2000, 4000], [200], [], tables),
    Workload("refused lines", "each line is an unknown command", [10000, 100000, 1000000], [5000], [], refused_lines),
    Workload("keys", "one load of keys, and a select", [1000, 10000, 100000], [300], [], keys_in_one_load),
    Workload("small loads", "loads of one record each", [1000, 10000, 100000], [300], [], loads_of_one_record),
    Workload("five columns", "one load of records with five members each", [1000, 10000, 100000], [300], KEYS + ["columns"], five_columns),
    Workload("records", "records with a reference, a number and an indexed text", [1000, 10000, 100000], [500], RECORDS, grouped_records),
    Workload("one-word records", "five searches a record, each finds one", [400, 4000, 40000], [200], SEARCHES, one_word_records),
    Workload("words", "texts of 60 words under a word index; phrases", [500, 5000, 50000], [200], SEARCHES, long_texts("TokenDelimit")),
    Workload("characters", "texts of 60 words under a character index; phrases", [500, 5000, 50000], [200], SEARCHES, long_texts("TokenBigram")),
    Workload("ranges", "range filters over numbers", [2000, 20000, 200000], [500], KEYS + ["columns", "filters"], ranges),
    Workload("updates", "one indexed text is set again and again", [500, 5000, 50000], [300], SEARCHES, updates),
    Workload("dump", "records are dumped", [1000, 10000, 100000], [300], KEYS + ["columns", "dump"], dumped),
]
