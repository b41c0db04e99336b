#include <fcgiapp.h>
#include <stdlib.h>
#include <string.h>
/* A responder on libfcgi: it answers with the value of LOG and how many bytes of STDIN came. */
int main(void) {
    FCGX_Request request;
    FCGX_Init();
    FCGX_InitRequest(&request, FCGX_OpenSocket("127.0.0.1:9101", 5), 0);
    while (FCGX_Accept_r(&request) == 0) {
        char *log = FCGX_GetParam("LOG", request.envp);
        int n = 0;
        while (FCGX_GetChar(request.in) != -1) n++;
        FCGX_FPrintF(request.out, "Content-Type: text/plain\r\n\r\nlog %s, %d bytes\n", log ? log : "none", n);
        FCGX_FPrintF(request.err, "seen\n");
        FCGX_SetExitStatus(7, request.out);
        FCGX_Finish_r(&request);
    }
    return 0;
}
