"""The programs of examples, with inputs and what they print. A text alone is the whole output; of
a list each has to be in it, in this order. The library shows what READ reads."""

CROWN = ("take lamp\nn\nw\ntake rope\ne\nlight\nn\ne\ntake key\nw\ns\ne\ntake book\nn\ntake crown\n"
         "s\nw\ns\ninventory\ndrop crown\n")

PROGRAMS = [
    ("hello.pas", "Ann\n41\n", "Who are you? Ann\nHow old? 41\n"
     "Hello, Ann. In ten years you are 51.\n", ""),
    ("echo.pas", "hi\nyou.x", "> hi\n> you.\nBYE\n", ""),
    ("towers.pas", "", ["1: A-B 3 1 0\n", "15: B-C 0 0 4\nDONE\n"], ""),
    ("sorter.pas", "5 -3 12\n5\n\n", "-3 2\n5 1\n5 4\n12 3\nNO PRINTER\n", ""),
    ("calculator.pas", "2*(3+4)-10%3\n32767+1\n-32768\n.", "13\n?\n-32768\n", ""),
    ("sieve.pas", "", ["2\n3\n5\n7\n11\n", "991\n997\n"], ""),
    ("calendar.pas", "", ["13.6.80\n13.2.81\n", "13.12.85\n"], ""),
    ("terminal/answer.pas", "hello\r\r", "? hello\r= hello\r? \r", ""),
    # The way to the crown; and what ends badly, is locked, and is not known.
    ("adventure.pas", CROWN, [
        "There is a LAMP here.\n> take lamp\nTaken.\n", "> take rope\nTaken.\n",
        "The lamp burns.\n", "> take key\nTaken.\n",
        "You carry a LAMP.\nYou carry a ROPE.\nYou carry a KEY.\nYou carry a BOOK.\n"
        "You carry a CROWN.\n> drop crown\nDropped.\nThe people cheer. You have won!\n"
        "You have 100 of 100 points after 20 moves.\n"], ""),
    ("adventure.pas", "n\ne\nn\ntake crown\nDROP x\njump\nw\nn\nscore\nw\n", [
        "> n\nThe iron door is locked.\n> take crown\nThere is no CROWN here.\n> DROP x\n"
        "What is X?\n> jump\nN, E, S, W, LOOK,", "It is dark. Something breathes here.\n> score\n"
        "You have 30 of 100 points after 9 moves.\n> w\nThere is a wall.\n> "], "waits"),
    ("adventure.pas", "n\nn\ne\n", ["You stumble in the dark, and something bites. The game is "
                                    "over.\nYou have 20 of 100 points after 3 moves.\n"], ""),
    ("ledger.pas", "in 120 membership of Ann\nOUT 35 stamps\nout 100 cake\nIN 32768 x\nIN 5x y\n"
     "in 32767 z\nlist\nfind sta\nundo\nhm\nquit\n", [
         "> in 120 membership of Ann\nIn the box: 120\n", "In the box: 85\n",
         "There are only 85 in the box.\n> IN 32768 x\nAn amount is a number from 1 to 32767.\n"
         "> IN 5x y\nAn amount is a number from 1 to 32767.\n> in 32767 z\nThe box is full.\n",
         "   1     120  membership of Ann\n   2     -35  stamps\nIn the box: 85\n",
         "> find sta\n   2     -35  stamps\n> undo\nTaken back: -35 stamps\nIn the box: 120\n"
         "> hm\nI know IN, OUT, LIST, FIND, UNDO and QUIT.\n> quit\n"
         "Closed with 1 entries and 120 in the box.\n"], ""),
    # A column, a row, both diagonals; a full column; a line that is no digit.
    ("four.pas", "4\n3\n4\n3\n4\n3\n4\nn\n", ["X has won with 7 stones on the board.\n"
                                             "Again (Y or N)? n\nGoodbye.\n"], ""),
    ("four.pas", "1\n1\n2\n2\n3\n3\n4\ny\nq\n", ["X has won with 7 stones", " 1 2 3 4 5 6 7\n"
                                               "X, your column (1 to 7, Q to stop): q\n"], ""),
    ("four.pas", "1\n2\n2\n3\n3\n4\n3\n4\n4\n6\n4\nn\n", ["X has won with 11 stones"], ""),
    ("four.pas", "7\n6\n6\n5\n5\n4\n5\n4\n4\n2\n4\nn\n", ["X has won with 11 stones"], ""),
    ("four.pas", "1\n" * 7 + "x\n12\nQ\n", [
        "Column 1 is full.\nX, your column (1 to 7, Q to stop): x\nType one digit.\n"
        "X, your column (1 to 7, Q to stop): 12\nType one digit.\n"], ""),
]

# What the assembly came to that was written by hand for the same texts: bytes of the segment, and
# steps on the first input above.
BY_HAND = {"echo.pas": (104, 231), "sieve.pas": (216, 81971), "calendar.pas": (470, 130331),
           "towers.pas": (392, 5732), "sorter.pas": (600, 1794), "calculator.pas": (704, 3024)}
