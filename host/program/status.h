/* The program's exit statuses: 0, the libraries' refusals (isap.h, parcel.h), and two of its own above them. */
#ifndef STATUS_H
#define STATUS_H

enum { STATUS_WELL = 0, STATUS_USAGE = 64, STATUS_IO = 74 };

#endif
