#include <fazgrond.hpp>
