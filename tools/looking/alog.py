"""`moos look alog`: the posts of a run as an .alog file, the log of MOOS-IvP's logger, for the tools that read such files.

After a banner of lines that begin with %% each post is a line: the seconds since the log's start, the variable, who posted it, and the
value, with blanks between. A text stands there without quotes, so a text that looks like a number can't be told from one."""
from .report import Entry, Opening, text_of

RULE = "%" * 70


def banner(name):
    """The stamps of a run count from 0, so its log starts at 0 of the clock."""
    return [RULE, f"%% LOG FILE:       {name}", "%% FILE OPENED ON  Thu Jan  1 00:00:00 1970", "%% LOGSTART               0", RULE]


def run(report, community):
    """The lines of the log of one community, by its number from 1 on."""
    number = 0
    yield from banner(report.name)
    for record in report:
        if isinstance(record, Opening):
            number += 1
        elif isinstance(record, Entry) and number == community:
            for post in record.posts:
                text = text_of(post.value)
                yield f"{post.stamp:<12} {post.variable:<24} {post.source:<18} {post.value if text is None else text}"
