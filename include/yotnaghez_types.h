/*
 * yotnaghez_types.h: the sizes, the numbers and the structs of yotnaghez.h, which includes this file.
 */
#ifndef YOTNAGHEZ_TYPES_H
#define YOTNAGHEZ_TYPES_H

#include <stddef.h>
#include <stdint.h>

/* ---- Sizes ------------------------------------------------------------------------------------------------------ */

enum {
    YOT_SLOTS = 16,     /* requests that can be active at once on a connection */
    YOT_AREA = 4096,    /* bytes of parameters that each of them can have */
    YOT_STORE = 65536,  /* bytes of the store: an area for each request */
    YOT_QUERY = 512,    /* bytes of `gathered`: a query while it comes in */
    YOT_WAITS = 54,     /* numbers of what waits */
    YOT_ROOM = 1024,    /* bytes of output that can wait for each request */
    YOT_QUEUE = 16384,  /* bytes of the queue, and of the marks: room for each request */
    YOT_PUMPED = 520,   /* bytes that the pump wants in its buffer for each record that it may write */
    YOT_CHUNK = 8184,   /* content bytes of a record that yot_write_output writes, at most */
    YOT_REPLY = 64      /* bytes that the longest owed reply takes */
};

/* ---- Numbers ---------------------------------------------------------------------------------------------------- */

/* Why a call is refused. It gives the first of its own that applies, in the order 2, 9, 1, 3, 4, 5, 7, 8, 6, 10. */
enum yot_refusal {
    YOT_REFUSAL_NONE = 0,
    YOT_REFUSAL_CLOSED = 1,        /* the connection is closed */
    YOT_REFUSAL_STORE_SIZE = 2,    /* the store does not have YOT_STORE bytes, or the queue not YOT_QUEUE */
    YOT_REFUSAL_NOT_ACTIVE = 3,    /* no active request has that id */
    YOT_REFUSAL_NOT_READY = 4,     /* its parameters have not ended, or are lost by a fault */
    YOT_REFUSAL_ENDED = 5,         /* that output stream is ended, or the request is finished */
    YOT_REFUSAL_NO_ROOM = 6,       /* what would be written is longer than the buffer */
    YOT_REFUSAL_NO_PAIR = 7,       /* the list has no pair of that number */
    YOT_REFUSAL_TOO_LONG = 8,      /* a name or a value to be written is over 65,535 bytes */
    YOT_REFUSAL_OUT_OF_SHAPE = 9,  /* the state is not one that these calls leave, or a code is unknown */
    YOT_REFUSAL_WAITING = 10,      /* no room in the queue for all of it; straight out: something waits already */

    YOT_REFUSAL_NUMBER_TOO_LARGE = 31, /* readings: a number over 4,294,967,295, or of more than five bytes */
    YOT_REFUSAL_NOT_SHORTEST = 32,     /* readings: a number that has a shorter form */
    YOT_REFUSAL_OUT_OF_RANGE = 33,     /* readings: a temperature below -600 or over 400 tenths */
    YOT_REFUSAL_CUT_SHORT = 34,        /* readings: the body ended inside a reading */

    YOT_REFUSAL_RAW_COUNT = 41,    /* correction: a raw count over 65,535 */
    YOT_REFUSAL_TEMPERATURE = 42,  /* correction: a temperature below -600 or over 400 tenths */
    YOT_REFUSAL_CARD_KIND = 43,    /* correction: a card of the wrong kind or of no known kind */
    YOT_REFUSAL_CARD_FLOAT = 44    /* correction: a card's float is not finite, or is outside -1,000 to 1,000 */
};

/* What is told: yot_event.kind. The fields that a kind sets beside `kind` are named; the others are 0. */
enum yot_event_kind {
    YOT_EVENT_NOTHING = 0,  /* nothing to tell */
    YOT_EVENT_OPEN = 1,     /* id, number (the role), keep: a request is opened */
    YOT_EVENT_READY = 2,    /* id, count (the length of its list): its parameters are complete */
    YOT_EVENT_DATA = 3,     /* id, stream, count: the last `count` bytes of those that the call used */
    YOT_EVENT_END = 4,      /* id, stream, number (the measure): the stream has ended */
    YOT_EVENT_ABORT = 5,    /* id: the web server gives the request up; finish it soon */
    YOT_EVENT_REFUSE = 6,   /* id, number (the status): a request is not opened; a reply is owed */
    YOT_EVENT_FAULT = 7,    /* id, number (the fault), place: the request broke a rule; finish it */
    YOT_EVENT_QUERY = 8,    /* number (what it asks for): a reply is owed */
    YOT_EVENT_UNKNOWN = 9,  /* number (the record type): a reply is owed */
    YOT_EVENT_CLOSED = 10   /* number (the cause), place: the connection is closed and all requests are gone */
};

/* What a request did wrong: yot_event.number of YOT_EVENT_FAULT. Its parameters and counts are lost. */
enum yot_fault {
    YOT_FAULT_BEGIN_AGAIN = 21,  /* a BEGIN record for a request that is active */
    YOT_FAULT_OUT_OF_TURN = 22,  /* a record of PARAMS, STDIN or DATA when it is not the turn of that stream */
    YOT_FAULT_WRONG_TYPE = 23,   /* a record of a type that no web server sends to a request */
    YOT_FAULT_TOO_LONG = 24,     /* more than YOT_AREA bytes of parameters */
    YOT_FAULT_MALFORMED = 25,    /* a malformed list: yot_event.place is where the pair starts that cannot be read */
    YOT_FAULT_REPEATED = 26      /* two parameters have the same name */
};

/* Why a connection closes: yot_event.number of YOT_EVENT_CLOSED. */
enum yot_close {
    YOT_CLOSE_VERSION = 11,         /* a header whose version is not 1 */
    YOT_CLOSE_BEGIN_LENGTH = 12,    /* a BEGIN record that does not have 8 content bytes */
    YOT_CLOSE_QUERY_LENGTH = 13,    /* a query of more than YOT_QUERY bytes */
    YOT_CLOSE_QUERY_MALFORMED = 14  /* a malformed query: yot_event.place is where the pair starts */
};

/* Why a request is not opened: yot_event.number of YOT_EVENT_REFUSE. */
enum yot_status {
    YOT_STATUS_OVERLOADED = 2,   /* all slots are taken */
    YOT_STATUS_UNKNOWN_ROLE = 3  /* the role is none of the three */
};

/* What the web server asks the application to be: yot_event.number of YOT_EVENT_OPEN. */
enum yot_role {
    YOT_ROLE_RESPONDER = 1,
    YOT_ROLE_AUTHORIZER = 2,  /* has no input streams: answer it when it is ready */
    YOT_ROLE_FILTER = 3       /* has DATA after STDIN */
};

/* Streams, by the types of their records. */
enum yot_stream {
    YOT_STDIN = 5,
    YOT_STDOUT = 6,
    YOT_STDERR = 7,
    YOT_DATA = 8
};

/* What came of a stream against the length that the request stated: yot_event.number of YOT_EVENT_END. */
enum yot_measure {
    YOT_MEASURE_UNSTATED = 0,  /* no length is stated, or it is no number */
    YOT_MEASURE_SHORT = 1,     /* fewer bytes came than were stated */
    YOT_MEASURE_EXACT = 2,     /* as many */
    YOT_MEASURE_OVER = 3       /* more */
};

/* What a query asks for, added up: yot_event.number of YOT_EVENT_QUERY. */
enum yot_query {
    YOT_QUERY_MAX_CONNS = 1,
    YOT_QUERY_MAX_REQS = 2,
    YOT_QUERY_MPXS_CONNS = 4
};

/* The input stream that may come next: yot_request_info.turn. */
enum yot_turn {
    YOT_TURN_PARAMS = 0,
    YOT_TURN_STDIN = 1,
    YOT_TURN_DATA = 2,
    YOT_TURN_DONE = 3  /* all input is in */
};

/* Whether a request still hears its records: yot_request_info.life. */
enum yot_life {
    YOT_LIFE_LIVE = 0,
    YOT_LIFE_FAULTED = 1,
    YOT_LIFE_ABORTED = 2  /* aborted, or finished while its END still waits */
};

/* What reading a pair comes to: yot_pair.kind. */
enum yot_pair_kind {
    YOT_PAIR_REFUSED = 0,   /* the call is refused */
    YOT_PAIR_IS = 1,        /* a pair */
    YOT_PAIR_END = 2,       /* the end of the list */
    YOT_PAIR_MALFORMED = 3  /* a pair that cannot be read; it starts at `next` */
};

/* The kinds of calibration cards: yot_card.kind. */
enum yot_card_kind {
    YOT_CARD_THAWED = 1,  /* first: the offset */
    YOT_CARD_FROZEN = 2   /* first: the slope; second: the offset */
};

/* ---- The state, and what the calls answer ----------------------------------------------------------------------- */

/*
 * The state of a connection. It goes from call to call as the last one left it; a program has no need to look at its
 * fields. No state does harm: one of zeros or of random bytes is refused by 9, or answered by what its fields say.
 */
typedef struct yot_state {
    size_t content;                    /* content bytes left of the record being read */
    size_t padding;                    /* padding bytes left of it */
    size_t held;                       /* bytes of the next header that are in */
    size_t gathered;                   /* bytes of a body that are gathered */
    uint32_t stdin_shown[YOT_SLOTS];   /* slot by slot: bytes of STDIN shown */
    uint32_t data_shown[YOT_SLOTS];    /* bytes of DATA shown */
    uint16_t ids[YOT_SLOTS];           /* the request's id */
    uint16_t lengths[YOT_SLOTS];       /* the length of its list */
    uint16_t keep;                     /* words with a bit for each slot: the connection outlives the request */
    uint16_t out_ended;                /* its STDOUT is ended */
    uint16_t err_used;                 /* something was said on its STDERR */
    uint16_t err_ended;                /* its STDERR is ended */
    uint16_t occupied;                 /* the slot is taken */
    uint16_t target_number;            /* the id or the slot that the content is for */
    uint8_t roles[YOT_SLOTS];          /* YOT_ROLE_... */
    uint8_t turns[YOT_SLOTS];          /* YOT_TURN_... */
    uint8_t lives[YOT_SLOTS];          /* YOT_LIFE_... */
    uint8_t header[8];                 /* the header bytes that are in */
    uint8_t body[8];                   /* the bytes of a BEGIN body that are gathered */
    uint8_t target;                    /* the content is for 0 nobody, 1 BEGIN, 2 a query, 3 PARAMS, 4 STDIN, 5 DATA */
    uint8_t open;                      /* 1 open, 0 closed */
} yot_state;

/* What a step tells. Each field means what YOT_EVENT_... says of it. */
typedef struct yot_event {
    size_t count;
    uint16_t id;
    uint16_t place;
    uint8_t kind;
    uint8_t stream;
    uint8_t number;
    uint8_t keep;
} yot_event;

/* yot_start: the state of an open connection, or that of a closed one and the refusal. */
typedef struct yot_started {
    yot_state state;
    uint8_t refusal;
} yot_started;

/* yot_step, yot_next_event: the bytes used, what they tell, and the state afterwards. */
typedef struct yot_stepped {
    size_t used;
    yot_event event;
    yot_state state;
    uint8_t refusal;
} yot_stepped;

/* yot_value, yot_list: `length` bytes from store[offset] on if `found` is 1; 0 if no parameter has that name. */
typedef struct yot_place {
    size_t offset;
    size_t length;
    uint8_t refusal;
    uint8_t found;
} yot_place;

/* yot_pair_at, yot_pair_from: places and lengths of name and value. The places are counted in the request's list. */
typedef struct yot_pair {
    size_t name;
    size_t name_len;
    size_t value;
    size_t value_len;
    size_t next;  /* from yot_pair_from: the place after a pair, or where a malformed one starts */
    uint8_t refusal;
    uint8_t kind;  /* YOT_PAIR_... */
} yot_pair;

/* yot_request: what a request is. */
typedef struct yot_request_info {
    uint32_t stdin_shown;  /* bytes of STDIN that were shown, up to 4,294,967,295; 0 after a fault */
    uint32_t data_shown;   /* the same of DATA */
    uint16_t id;
    uint16_t length;       /* bytes of parameters */
    uint8_t role;          /* YOT_ROLE_... */
    uint8_t turn;          /* YOT_TURN_... */
    uint8_t life;          /* YOT_LIFE_... */
    uint8_t keep;          /* 1: the connection outlives it */
    uint8_t out_ended;     /* 1: its STDOUT is ended */
    uint8_t err_used;      /* 1: something was said on its STDERR */
    uint8_t err_ended;     /* 1: its STDERR is ended */
    uint8_t refusal;
} yot_request_info;

/* yot_active_count. */
typedef struct yot_count {
    uint32_t count;
    uint8_t refusal;
} yot_count;

/* yot_queue_output, yot_queue_end, yot_queue_finish. */
typedef struct yot_queued {
    yot_state state;
    uint8_t refusal;
} yot_queued;

/* yot_pump: records and bytes written; `closed` is 1 if the END of a request closed the connection. */
typedef struct yot_pumped {
    size_t records;
    size_t written;
    yot_state state;
    uint8_t refusal;
    uint8_t closed;
} yot_pumped;

/* yot_write_output, yot_end_output: the bytes written at the start of the buffer. */
typedef struct yot_written {
    size_t written;
    yot_state state;
    uint8_t refusal;
} yot_written;

/* yot_finish: the bytes written; `closed` is 1 if the connection closed. */
typedef struct yot_finished {
    size_t written;
    yot_state state;
    uint8_t refusal;
    uint8_t closed;
} yot_finished;

/* yot_owed_reply, yot_write_pair, yot_write_reading: the bytes written at the start of the buffer. */
typedef struct yot_wrote {
    size_t written;
    uint8_t refusal;
} yot_wrote;

/* The reader of a body of readings. It goes from call to call like the state. */
typedef struct yot_reader {
    uint32_t log;      /* the numbers of the reading that are in */
    uint32_t sent;
    uint32_t value;    /* what is in of the next number */
    uint8_t count;     /* how many bytes of it are in */
    uint8_t field;     /* which number comes next: 0 log, 1 temperature, 2 raw count */
    uint8_t standing;  /* 0 while the body is sound, then its refusal */
} yot_reader;

/* yot_read_reading: the bytes used; if `kind` is 1, a reading. */
typedef struct yot_read {
    size_t used;
    uint32_t log;
    int32_t tenths;  /* the temperature in tenths of a degree */
    uint32_t raw;
    yot_reader reader;
    uint8_t kind;
    uint8_t refusal;
} yot_read;

/* yot_end_body: 0 if the body was clean, and the reader for the next body. */
typedef struct yot_ended {
    yot_reader reader;
    uint8_t refusal;
} yot_ended;

/* A calibration card. */
typedef struct yot_card {
    double first;
    double second;
    uint32_t serial;
    uint8_t kind;  /* YOT_CARD_... */
} yot_card;

/* yot_correct: the corrected count. */
typedef struct yot_corrected {
    double count;
    uint8_t refusal;
} yot_corrected;

#endif
