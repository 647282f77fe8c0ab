// Reads a card from standard input, builds it, and writes the verdict's number and the sequence: a program in C++ that uses the library as it is installed.
#include <belfrymist.h>

#include <iostream>
#include <iterator>
#include <string>

int main()
{
    std::string card((std::istreambuf_iterator<char>(std::cin)), std::istreambuf_iterator<char>());
    std::string letters(BELFRYMIST_MOST_SEQUENCE, '-');
    belfrymist_build_answer answer = belfrymist_build(reinterpret_cast<const uint8_t *>(card.data()), card.size(), 1000000,
                                                      reinterpret_cast<uint8_t *>(&letters[0]), letters.size());
    std::cout << answer.verdict << ' ' << letters.substr(0, answer.length) << '\n';
    return answer.number != 0;
}
