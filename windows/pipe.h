/* A named pipe for the programs on I/O: reads are made on its one end, and completed by writes to
   the other one. */
struct operation { OVERLAPPED overlapped; const char *name; char bytes[16]; };

SHARED HANDLE make_pipe(HANDLE *writer)
{
    char name[64];
    HANDLE reader;
    sprintf(name, "\\\\.\\pipe\\tpool-%lu", GetCurrentProcessId());
    reader = CreateNamedPipeA(name, PIPE_ACCESS_INBOUND | FILE_FLAG_OVERLAPPED, PIPE_TYPE_MESSAGE | PIPE_READMODE_MESSAGE, 1, 64, 64, 0, NULL);
    *writer = CreateFileA(name, GENERIC_WRITE, 0, NULL, OPEN_EXISTING, 0, NULL);
    return reader;
}

SHARED void write_to(HANDLE writer, const char *text)
{
    DWORD written;
    WriteFile(writer, text, (DWORD)strlen(text), &written, NULL);
}

/* Begins a read, and says what came of it. */
SHARED void begin_read(HANDLE reader, struct operation *read, const char *name)
{
    BOOL is_over;
    memset(read, 0, sizeof *read);
    read->name = name;
    is_over = ReadFile(reader, read->bytes, sizeof read->bytes, NULL, &read->overlapped);
    printf("%s is %s\n", name, is_over ? "over at once" : GetLastError() == ERROR_IO_PENDING ? "under way" : "failed");
}

SHARED void CALLBACK pass_io(PTP_CALLBACK_INSTANCE i, void *name, void *overlapped, ULONG error, ULONG_PTR bytes, PTP_IO io)
{
    struct operation *read = overlapped;
    printf("%s runs for %s: error %lu, %lu bytes\n", (char *)name, read->name, error, (unsigned long)bytes);
    InterlockedIncrement(&begun);
    InterlockedIncrement(&over);
}

SHARED DWORD WINAPI wait_io(void *io) { WaitForThreadpoolIoCallbacks(io, FALSE); return 0; }
SHARED DWORD WINAPI cancel_io(void *io) { WaitForThreadpoolIoCallbacks(io, TRUE); return 0; }
