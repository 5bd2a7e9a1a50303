// The stack that a call needs.
#pragma once

void report_stack();
