/* liburcu includes it for Linux alone; picolibc's refuses to be included. */
