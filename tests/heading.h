/* The first line of every report, for the tests in C. */
#ifndef TESTS_HEADING_H
#define TESTS_HEADING_H

#define REPORT_HEADING "queue,x,y,minimum,by,capacity,margin\n"

#endif
