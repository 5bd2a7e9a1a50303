// ./bench seek SECONDS: looks for families of lines on which our ratio to the better LEMON model is greatest.
#pragma once

int seek(double seconds);
