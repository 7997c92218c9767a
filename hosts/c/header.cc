// The header in C++: its assertions hold, its types begin with `= {}`, and its calls link. tools/hosts runs it.
#include "kfs.h"
#include <cstdio>

int main()
{
    kfs desk = {};
    kfs_client client = {};
    client.number = 7;
    client.first = 2;
    client.last = 99;
    kfs_fault fault = {};
    const uint32_t group = 0;
    const uint32_t status = kfs_open(&desk, 8, 8, 8, &client, 1, &group, 0, 10, &fault);
    const uint32_t twice = kfs_look(&desk, &desk);
    std::printf("version %s, status %u, one handle for two %u\n", KFS_VERSION, status, twice);
    kfs_close(&desk);
    return status == KFS_DONE ? 0 : 1;
}
