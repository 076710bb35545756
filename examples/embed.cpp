// Checks a plan: c++ embed.cpp $(pkg-config --cflags --libs fleet) && ./a.out MAP SCEN PLAN
#include "fleet.h"
#include <cstdlib>
#include <fstream>
#include <iostream>
#include <sstream>

static std::string read(const char *name) {
    const std::ifstream file(name, std::ios::binary);
    if (!file) {
        std::cerr << name << " cannot be read\n";
        std::exit(3);
    }
    std::ostringstream all;
    all << file.rdbuf();
    return all.str();
}

static const uint8_t *at(const std::string &text) { return reinterpret_cast<const uint8_t *>(text.data()); }

int main(int count, char **name) {
    if (count != 4)
        return 2;
    const std::string map = read(name[1]), scen = read(name[2]), plan = read(name[3]);
    fleet_checked checked{};
    fleet_fault fault{};
    if (fleet_check(at(map), map.size(), at(scen), scen.size(), 0, at(plan), plan.size(), &checked, &fault) != FLEET_DONE)
        return std::cout << "part " << fault.part << ", number " << fault.number << "\n", 1;
    std::cout << "conflict-free\nagents " << checked.agents << "\nsteps " << checked.steps << "\n";
}
