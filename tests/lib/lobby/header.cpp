// The headers of lines and lobbies, as C++.
#include <faz_lobby.h>
