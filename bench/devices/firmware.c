/* The start of a device as firmware: opens the debugger's streams, which are those of qemu, before callback.c runs. */
void initialise_monitor_handles(void);
int __real_main(void);
int __wrap_main(void);

int __wrap_main(void)
{
    initialise_monitor_handles();
    return __real_main();
}
