"""How many columns a text takes on a terminal, nearly as `unicode_width` counts them."""
import re
import unicodedata

# A letter with what joins it: marks, and letters after a joiner.
CLUSTER = re.compile(
    "(?:.\ufe0f?[\U0001f3fb-\U0001f3ff]?(?:\u200d.\ufe0f?[\U0001f3fb-\U0001f3ff]?)+)|.\ufe0f|.", re.DOTALL
)
NONE = {"Mn", "Me", "Cf"}


def of_letter(letter):
    if unicodedata.category(letter) in NONE or "\u1160" <= letter <= "\u11ff" or letter == "\u3164":
        return 0
    return 2 if unicodedata.east_asian_width(letter) in "WF" else 1


def columns(text):
    total = 0
    for cluster in CLUSTER.findall(text):
        wide = (
            len(cluster) > 1
            and (cluster[0] >= "\u2000" or cluster[0] in "#*0123456789\u00a9\u00ae")
            and unicodedata.category(cluster[0]) in {"So", "Sm", "Po", "Nd"}
        )
        total += 2 if wide else sum(map(of_letter, cluster))
    return total
