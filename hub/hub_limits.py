"""Every limit of the hub. docs/HUB.md names those that a till meets."""

# requests
MOST_BODY = 65_536  # bytes
MOST_PASSED_OVER = 8_388_608  # bytes of a body that is too large: so many are read ahead of the answer, so that it isn't lost by a reset
MOST_FIELD = 8_192  # bytes of a header field, and of the request's first line
MOST_HEAD = 65_536  # bytes of a request's head
ANSWER_WITHIN = 30  # seconds from a whole request to its answer
MOST_UNDER_WAY = 4  # requests of a till, or of the owner
LONGEST_WORD = 80  # characters
LONGEST_NAME = 200  # characters
FIRST_TOO_GREAT = 10**13  # of a number's absolute value
MOST_DIGITS = 15  # of a number, its sign included
MOST_LINES = 12  # that are asked how a total becomes lines

# connections
MOST_CONNECTIONS = 2_000
WHOLE_REQUEST = 75  # seconds until a request must have arrived; longer than most HTTP libraries keep an idle connection
WHOLE_ANSWER = 105  # seconds from there until its answer must have been made and taken
MOST_PIPELINED = 16  # requests that were sent ahead of answers
HANDSHAKE = 15  # seconds of TLS's handshake
TLS_BUFFER = 16_384  # bytes that a connection over TLS holds to read into, ahead of its handshake too: a record of TLS has no more
BACKLOG = 256  # connections that wait to be accepted; so many may be accepted before the ones that are too many are closed
SPARE_HANDLES = 64  # file handles beside one a connection

FAILURES_APART = 10  # seconds from one line about connections that were too many to the next

# the log
MOST_LOG = 1_048_576  # bytes that wait for the reader of standard error
LAST_LINES = 2  # seconds that they may take at the end

# the program
MOST_TILLS = 64
MOST_CUSTOMERS = 9_900  # said in one run; the program takes 10,000, and more may be on their way
MOST_ANSWER = 65_536  # bytes of one answer
LONGEST_PAUSE = 60  # seconds until the program is started again, at most
KILLED_AFTER = 10  # seconds that a program may take to end after a fault of its disk
TURNS = 2  # so often the program may end at a line's turn
FRESH = 1  # seconds for which an answer shows that the program is alive
PING = 5  # seconds in which it has to answer `chain`
LAST_ANSWERS = 2  # seconds for answers to be written at the end
MOST_FAULTS = 4  # lines of a program's standard error that say why it ended
LONGEST_FAULT = 1_000  # bytes of such a line

# many shops
LONGEST_SHOP = 32  # characters of a shop's name
MOST_CONNECTIONS_OF_MANY = 10_000
IDLE = 300  # seconds without a request after which a shop's program is ended, where --idle doesn't say otherwise
LONGEST_IDLE = 86_400
PROGRAMS = 200  # that run at once, where --programs doesn't say otherwise
MOST_PROGRAMS = 10_000
HANDLES_OF_A_PROGRAM = 6  # three pipes, its end, and two more while it starts
CLOSING = 5  # seconds that a program has to end in, once its pipe is closed; then it is killed, and what waits is sent by the next one
LONGEST_PAUSE_OF_MANY = 5  # seconds until the program of one of many shops is started again, at most: a shop that moves waits for a lock
MAKING_ROOM = 0.2  # the same, where another shop's program waits for its place
LOOK_EVERY = 10  # seconds from one `chain` asked for the figures to the next
LISTS_APART = 300  # seconds from one `list FILE refused` for the figures to the next, at least
FAULT_STANDS = 60  # seconds for which a program that no restart mends isn't tried again
ROUND_AGAIN = 600  # seconds from one try to send what waits at a shop that nobody asks to the next, at least
DEAF = 60  # seconds after its start from which on an idle program that doesn't answer is killed
ENDING = 2  # seconds for which a program whose pipe was closed counts as one that will make room

# cancelled invoices
MOST_RECORDS_ASKED = 1_000  # one by one since the last look; of more the file is listed anew
PART_OF_A_LIST = 65_536  # bytes that are read at once

# trials of tills
MOST_SEED = 10**9

# the owner
NEWEST = 20  # records
REFUSED_AT_ONCE = 50  # records
BETWEEN_LISTS = 30  # seconds from one `list FILE refused` to the next, at least
OLD_LIST_AFTER = 2  # seconds after which the list before is shown while a new one is made
NICE = 10  # of the commands that run beside the program

# tokens
SHORTEST_TOKEN = 32  # characters
LONGEST_TOKEN = 512
