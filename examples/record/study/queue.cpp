// A thread hands messages to another one by readerwriterqueue, which has relaxed accesses and fences, and no lock.
#include "readerwriterqueue.h"
#include <cstdio>
#include <cstdlib>
#include <thread>

struct Message {
  int number;
};

int main(int count, char **words) {
  const int times = count > 1 ? std::atoi(words[1]) : 1000;
  long sum = 0;
  moodycamel::ReaderWriterQueue<Message *> queue(16);
  std::thread sender([&] {
    for (int k = 0; k < times; k++)
      queue.enqueue(new Message{k});
  });
  for (int k = 0; k < times; k++) {
    Message *got;
    while (!queue.try_dequeue(got))
      std::this_thread::yield();
    sum += got->number;
    delete got;
  }
  sender.join();
  std::printf("%ld\n", sum);
}
