-- Checks the body of a request before it goes on to what stores it, see README.md.
--
--     access_by_lua_block { require("geolint").check_body() }
local ffi = require("ffi")

-- What is used of geolint.h. A linter lies at a multiple of 16, which ffi.new sees to.
ffi.cdef [[
typedef struct __attribute__((aligned(16))) { char bytes[?]; } geolint_linter;
typedef struct { uint64_t count, first; } geolint_warned;
typedef struct { uint32_t status, verdict, rule, cause; uint64_t place, warned; geolint_warned warnings[9]; } geolint_report;
typedef struct { uint64_t line, column; } geolint_lines;
typedef struct { const char *bytes; size_t size; } geolint_text;
size_t geolint_size(void);
uint32_t geolint_begin(geolint_linter *, uint32_t, uint64_t);
uint32_t geolint_begin_again(geolint_linter *, uint32_t, uint64_t);
uint32_t geolint_feed(geolint_linter *, const char *, size_t);
geolint_report geolint_finish(geolint_linter *);
geolint_lines geolint_lines_begin(void);
geolint_lines geolint_lines_feed(geolint_lines, const char *, size_t);
void geolint_rule_text(uint32_t, geolint_text *);
void geolint_cause_text(uint32_t, geolint_text *);
]]

local DONE, VALID, BROKEN = 0, 1, 2
local PIECE = 65536
local ALWAYS_WITH_BODY = { POST = true, PUT = true, PATCH = true }

local library = ffi.load(os.getenv("GEOLINT_LIBRARY") or "libgeolint.so.0")
-- One for each worker of nginx: nothing waits while it reads a body.
local linter = ffi.new("geolint_linter", library.geolint_size())
library.geolint_begin(linter, 0, 0)

-- Passes the body to `take` in pieces, until that answers true. nginx has it in memory or in a file.
local function each_piece(take)
    local path = ngx.req.get_body_file()
    if not path then
        take(ngx.req.get_body_data() or "")
        return
    end
    local file, piece, wrong = assert(io.open(path, "rb"))
    repeat
        piece, wrong = file:read(PIECE)
    until not piece or take(piece)
    file:close()
    assert(not wrong, wrong)
end

local function report_of_body()
    library.geolint_begin_again(linter, 0, 0)
    each_piece(function(piece)
        return library.geolint_feed(linter, piece, #piece) ~= DONE
    end)
    return library.geolint_finish(linter)
end

-- The line and the column of a place in the body.
local function lines_at(place)
    local lines, left = library.geolint_lines_begin(), place
    each_piece(function(piece)
        lines = library.geolint_lines_feed(lines, piece, math.min(left, #piece))
        left = left - #piece
        return left <= 0
    end)
    return tonumber(lines.line), tonumber(lines.column)
end

-- The report in JSON. No text of the library has a byte that JSON escapes.
local function said_of(report)
    local is_broken, text = report.verdict == BROKEN, ffi.new("geolint_text")
    local write = is_broken and library.geolint_rule_text or library.geolint_cause_text
    local number, place = is_broken and report.rule or report.cause, tonumber(report.place)
    write(number, text)
    local line, column = lines_at(place)
    return string.format('{"verdict":"%s","code":"%s%d","text":"%s","offset":%d,"line":%d,"column":%d}',
        is_broken and "broken" or "not JSON", is_broken and "G" or "J", number, ffi.string(text.bytes), place, line, column)
end

local geolint = {}

-- Lets a request pass whose body is valid, or that has none and needs none; answers any other with 422.
function geolint.check_body()
    ngx.req.read_body()
    local has_body = ngx.req.get_body_file() or ngx.req.get_body_data()
    if not has_body and not ALWAYS_WITH_BODY[ngx.req.get_method()] then
        return
    end
    local report = report_of_body()
    if report.verdict == VALID then
        return
    end
    ngx.status = 422
    ngx.header["Content-Type"] = "application/json"
    ngx.say(said_of(report))
    ngx.exit(ngx.HTTP_OK)
end

return geolint
