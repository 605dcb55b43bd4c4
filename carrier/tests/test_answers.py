"""Finds calls of carrier/ whose answer nobody looks at.

An expression that is a statement has to be an assignment, a call of a function that answers
nothing, or a call with `(void)` before it and a comment that says why. A function of carrier/
answers nothing if it is declared so there; of all others NOTHING has those that do, or whose answer
is what they were given. So the answer of a function that is new here has to be looked at, or its
name has to be put in that table."""
import os
import re

import sources

# Functions of libraries that answer nothing, or a place that they were given.
NOTHING = {
    "memcpy", "memset", "memmove", "strcpy", "explicit_bzero", "free", "qsort", "srand", "exit",
    "_exit", "abort", "tdestroy", "twalk", "va_start", "va_end", "freeaddrinfo", "umask",
    "krbrelay_sealer_free", "krbrelay_opener_free", "krbrelay_receiver_free", "krbrelay_lane_free",
    "krbrelay_shard_free", "krbrelay_pause_begin", "krbrelay_pause_grow",
    "MHD_stop_daemon", "MHD_destroy_response", "sqlite3_result_int",
    "PQclear", "PQfinish", "PQconninfoFree", "PQsetNoticeProcessor",
    "natsConnection_ProcessReadEvent", "natsConnection_ProcessWriteEvent",
    "natsMsg_Destroy", "natsSubscription_Destroy", "natsInbox_Destroy", "jsCtx_Destroy",
    "natsConnection_Destroy", "natsOptions_Destroy", "jsStreamInfo_Destroy",
    "jsMsgMetaData_Destroy", "nats_Sleep",
    "krb5_free_error_message", "krb5_free_principal", "krb5_free_context", "krb5_free_ticket",
    "krb5_free_keyblock", "krb5_free_keyblock_contents", "krb5_free_authenticator",
    "krb5_free_unparsed_name", "krb5_free_creds", "krb5_free_cred_contents",
    "krb5_free_data_contents",
    "__atomic_store_n", "__atomic_fetch_add",
    "log_fact", "log_numbers",      # macros of carrier/
}
# Functions of carrier/ that log a fault, and answer always the same, for a caller to return.
REPORTS = {"report", "nats_report", "postgresql_report", "refuse"}

# What says nothing of a statement's form: comments, preprocessor lines, and what is in quotes.
LEFT_OUT = re.compile(r"""/\*.*?\*/|//[^\n]*|^[ \t]*\#(?:\\\n|[^\n])*|"(?:\\.|[^"\\])*"|'(?:\\.|[^'\\])*'""",
                      re.M | re.S)
GROUP = re.compile(r"\([^()]*\)|\[[^\[\]]*\]")
LITERAL = re.compile(r"@\{(?:[^{}]|\{[^{}]*\})*\}")       # of a struct, after its type
# What may stand before a statement, of which all in parentheses is one sign.
BEFORE = re.compile(r"(?:\s|\b(?:if|for|while|switch)\b\s*@|\b(?:else|do)\b|\bcase\b[^:]*:|\bdefault\s*:)*")
JUMP = re.compile(r"(?:return|break|continue|goto)\b")
DECLARATION = re.compile(r"(?:struct|enum|union|static|const|unsigned|int|char|void|size_t|extern|long|double|typedef"
                         r"|va_list|time_t|ssize_t)\b|\w+\s+\w|\w+\s*\*\s*\w")
ASSIGNMENT = re.compile(r"(?<![=!<>])=(?!=)|<<=|>>=|\+\+|--")
CALL = re.compile(r"(?:\w+(?:->|\.))*(\w+)\s*@")


def void_functions(texts):
    """The functions, and members of structs, that are declared to answer nothing."""
    found = set()
    for text in texts:
        found |= set(re.findall(r"\bvoid (\w+)\(", text))
        found |= set(re.findall(r"\bvoid \(\*(\w+)\)\(", text))
    return found


def lines_of(text):
    return "\n" * text.count("\n")


def statements(text):
    """Each simple statement, with its first line and its last. A group in parentheses is `@`, and `(void)` is `$`."""
    code = LEFT_OUT.sub(lambda it: '""' * (it[0][0] in "\"'") + lines_of(it[0]), text).replace("(void)", "$")
    before = None
    while before != code:
        before, code = code, GROUP.sub(lambda it: "@" * (it[0][0] == "(") + lines_of(it[0]), code)
    code = LITERAL.sub(lambda it: "@" + lines_of(it[0]), code)
    for it in re.finditer(r"(\}[ \w]+)?([^;{}]*);", code):    # the name after a brace is of a struct's value
        begin = it.start(2) + BEFORE.match(it[2]).end()
        first = code.count("\n", 0, begin) + 1
        yield code[begin:it.end() - 1].rstrip(), first, code.count("\n", 0, it.end()) + 1


def judge(statement, may_ignore):
    """What is wrong with a statement, or None."""
    if not statement or statement[0] == "$" or JUMP.match(statement) or DECLARATION.match(statement) \
            or ASSIGNMENT.search(statement):
        return None
    call = CALL.fullmatch(re.sub(r"\s", "", statement))
    if call is None:
        return "an expression that does nothing, or what it gives is ignored"
    return None if call[1] in may_ignore else f"the answer of {call[1]} is ignored"


def has_reason(lines, first, last):
    """Whether a comment ends on the line before, or stands on one of these."""
    return any("*/" in it for it in lines[max(0, first - 2):last])


def faults_of(name, text, void):
    """Each ignored answer of a source, as a line that says where."""
    found, lines = [], text.splitlines()
    for statement, first, last in statements(text):
        fault = judge(statement, void | NOTHING | REPORTS)
        if statement[:1] == "$" and not re.fullmatch(r"\$\s*\w+", statement) and not has_reason(lines, first, last):
            fault = "no comment says why this answer is ignored"
        if fault:
            found.append(f"{name}:{first}: {fault}")
    return found


def faults(folder):
    """Each ignored answer of a folder's sources."""
    texts = {}
    for path in sources.all_of(folder):
        with open(path, encoding="utf-8") as file:
            texts[os.path.basename(path)] = file.read()
    declared = void_functions(text for name, text in texts.items() if name.endswith(".h"))
    return [it for name, text in texts.items() if name.endswith(".c")
            for it in faults_of(name, text, declared | void_functions([text]))]


# A source in which some answers are ignored: the lines that have to be found.
PLANTED = """\
#include <stdio.h>
enum { ONE, TWO };
static const struct pair pairs[] = { { 1, 2 }, { 3, 4 } };
void nothing(int number);
static int close_all(struct shard *s, FILE *file)
{
    int answer = fclose(file);
    struct pair it = { 1, 2 };
    nothing(answer);
    if (answer != 0)
        s->calls->commit(s);                                /* found */
    for (answer = 0; answer < 2; answer++)
        write(1, "a;b", 3);                                 /* found */
    (void)fclose(file);

    (void)fflush(file); /* nobody can be told */
    answer > 0 && fsync(1);                                 /* found */
    s->calls->close(s);
    switch (answer) {
    case ONE: sqlite3_bind_int64(s->at, 1, 2);              /* found */
        break;
    default: pthread_mutex_lock(&s->lock);                  /* found */
    }
    while (answer-- > 0) {
        it = (struct pair){ 2, 3 };
    }
    return (struct pair){ 1, 2 }.one;
}
"""
UNEXPLAINED = 14    # the line of the cast without a reason


def test_each_answer_is_looked_at():
    """Or a comment says why not."""
    assert faults(sources.CARRIER) == []


def test_planted_ones_are_found():
    """And nothing else."""
    lines = PLANTED.splitlines()
    bare = "\n".join(it.replace("/* found */", "") for it in lines)
    wanted = {number for number, it in enumerate(lines, 1) if "/* found */" in it} | {UNEXPLAINED}
    told = faults_of("planted.c", bare, {"nothing", "close"})
    assert sorted(int(it.split(":")[1]) for it in told) == sorted(wanted), told


def test_the_same_name_in_another_source_is_no_reason(tmp_path):
    """Though the function there answers nothing."""
    room = tmp_path / "base"
    room.mkdir()
    (room / "one.c").write_text("static void ask(int number)\n{\n    count += number;\n}\n", encoding="ascii")
    (room / "two.c").write_text("static void work(void)\n{\n    ask(1);\n}\n", encoding="ascii")
    assert faults(tmp_path) == ["two.c:3: the answer of ask is ignored"]
