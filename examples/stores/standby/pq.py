"""PostgreSQL over its own C library, libpq.so.5, by ctypes: no package is needed.

Parameters and results are in the binary format: a whole number is an int8, bytes are a bytea, text is UTF-8."""
import ctypes
import select
import struct
import time
from ctypes import POINTER, c_char_p, c_int, c_uint, c_void_p

INT8, BYTEA, TEXT = 20, 17, 25  # the types of parameters, by their numbers in PostgreSQL
COMMAND_OK, TUPLES_OK = 1, 2

library = ctypes.CDLL("libpq.so.5")
for name, result, given in [
        ("PQconnectdb", c_void_p, [c_char_p]), ("PQstatus", c_int, [c_void_p]), ("PQerrorMessage", c_char_p, [c_void_p]),
        ("PQfinish", None, [c_void_p]), ("PQbackendPID", c_int, [c_void_p]), ("PQresultStatus", c_int, [c_void_p]),
        ("PQresultErrorField", c_char_p, [c_void_p, c_int]), ("PQresultErrorMessage", c_char_p, [c_void_p]),
        ("PQntuples", c_int, [c_void_p]), ("PQnfields", c_int, [c_void_p]), ("PQgetisnull", c_int, [c_void_p, c_int, c_int]),
        ("PQftype", c_uint, [c_void_p, c_int]), ("PQgetlength", c_int, [c_void_p, c_int, c_int]),
        ("PQgetvalue", c_void_p, [c_void_p, c_int, c_int]), ("PQclear", None, [c_void_p]),
        ("PQsendQueryParams", c_int, [c_void_p, c_char_p, c_int, POINTER(c_uint), POINTER(c_char_p), POINTER(c_int),
                                      POINTER(c_int), c_int]),
        ("PQsocket", c_int, [c_void_p]), ("PQisBusy", c_int, [c_void_p]), ("PQconsumeInput", c_int, [c_void_p]),
        ("PQgetResult", c_void_p, [c_void_p])]:
    getattr(library, name).restype, getattr(library, name).argtypes = result, given


class Error(Exception):
    """What PostgreSQL reports: a text, and the five letters of its kind; none if the connection has gone."""

    def __init__(self, text, state=None):
        super().__init__(text.strip())
        self.state = state


UNIQUE_VIOLATION = "23505"


def parameter_of(value):
    """The type of a parameter and its bytes."""
    if isinstance(value, int):
        return INT8, struct.pack(">q", value)
    return (TEXT, value.encode()) if isinstance(value, str) else (BYTEA, bytes(value))


def value_of(kind, data):
    if kind == TEXT:
        return data.decode()
    return data if kind == BYTEA else int.from_bytes(data, "big", signed=True)  # int8, int4, bool


class Connection:
    """A connection, on which a command may take so many seconds: one that gets no answer would wait for as long as the network
    does, which may be a quarter of an hour."""

    def __init__(self, words, limit=60):
        self.limit, self.at = limit, library.PQconnectdb(words.encode())
        if library.PQstatus(self.at):
            why = library.PQerrorMessage(self.at).decode()
            self.close()
            raise Error(why)

    def close(self):
        library.PQfinish(self.at)
        self.at = None

    def backend(self):
        """The number of the process that serves this connection."""
        return library.PQbackendPID(self.at)

    def rows(self, command, *parameters):
        """Executes a command with parameters $1, $2 and so on, and returns its rows."""
        types, values = zip(*map(parameter_of, parameters)) if parameters else ((), ())
        count = len(parameters)
        lengths, formats = (c_int * count)(*map(len, values)), (c_int * count)(*[1] * count)
        given = (c_uint * count)(*types), (c_char_p * count)(*values), lengths, formats
        if not library.PQsendQueryParams(self.at, command.encode(), count, *given, 1):
            raise Error(library.PQerrorMessage(self.at).decode())
        results = []
        try:
            self.read(results)
            for result in results:
                if library.PQresultStatus(result) not in (COMMAND_OK, TUPLES_OK):
                    state = library.PQresultErrorField(result, ord("C"))
                    raise Error(library.PQresultErrorMessage(result).decode(), state and state.decode())
            result = results[0]
            return [tuple(self.cell(result, row, column) for column in range(library.PQnfields(result)))
                    for row in range(library.PQntuples(result))]
        finally:
            for result in results:
                library.PQclear(result)

    def read(self, results):
        """Reads the rows of a command, and what comes after them: PostgreSQL sends rows before it commits. If the commit fails, or
        the connection is ended before it, an error comes after the rows."""
        self.wait()
        while result := library.PQgetResult(self.at):
            results.append(result)
            self.wait()

    def wait(self):
        """Returns once the answer is there."""
        end = time.monotonic() + self.limit
        while library.PQisBusy(self.at):
            if not select.select([library.PQsocket(self.at)], [], [], max(0, end - time.monotonic()))[0]:
                raise Error(f"PostgreSQL has not answered for {self.limit} seconds")
            if not library.PQconsumeInput(self.at):
                raise Error(library.PQerrorMessage(self.at).decode())

    @staticmethod
    def cell(result, row, column):
        if library.PQgetisnull(result, row, column):
            return None
        length = library.PQgetlength(result, row, column)
        data = ctypes.string_at(library.PQgetvalue(result, row, column), length)
        return value_of(library.PQftype(result, column), data)
