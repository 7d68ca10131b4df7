// Cap'n Proto's own car sales by C++ with generated code: cars are built, written framed into memory, or read and summed.
//
// usage: cars build|write|read COUNT ROUNDS
//
//     capnp compile -oc++ cars.capnp                  (Debian packages capnproto, libcapnp-dev)
//     g++ -O2 -std=c++17 -o cars cars.c++ cars.capnp.c++ -lcapnp -lkj
#include <capnp/message.h>
#include <capnp/serialize.h>
#include <kj/io.h>
#include <cstdio>
#include <cstdlib>
#include <cstring>
#include "cars.capnp.h"

static const char *const MAKES[] = {"Toyota", "GM", "Ford", "Honda", "Tesla"};
static const char *const MODELS[] = {"Camry", "Prius", "Volt", "Accord", "Leaf", "Model S", "Fiesta"};

static void fill(Car::Builder car, unsigned i) {
  car.setMake(MAKES[i % 5]);
  car.setModel(MODELS[i % 7]);
  car.setColor(static_cast<Color>(i % 9));
  car.setSeats(2 + i % 6);
  car.setDoors(2 + i % 3);
  unsigned k = 0;
  for (auto wheel : car.initWheels(4)) {
    wheel.setDiameter(25 + i % 15);
    wheel.setAirPressure(30 + (i + k) % 20);
    wheel.setSnowTires(i % 16 == 0);
    k += 1;
  }
  car.setLength(170 + i % 150);
  car.setWidth(48 + i % 36);
  car.setHeight(54 + i % 48);
  car.setWeight(7 * i);
  auto engine = car.initEngine();
  engine.setHorsepower(100 * (i % 400));
  engine.setCylinders(4 + 2 * (i % 3));
  engine.setCc(800 + i % 10000);
  engine.setUsesGas(true);
  engine.setUsesElectric(i % 2);
  car.setFuelCapacity(100 + i % 300);
  car.setFuelLevel(i % 100);
  car.setHasPowerWindows(i % 2);
  car.setHasPowerSteering(i % 3 == 0);
  car.setHasCruiseControl(i % 4 == 0);
  car.setCupHolders(i % 12);
  car.setHasNavSystem(i % 5 == 0);
}

static uint64_t sum_of(Car::Reader car) {
  uint64_t sum = car.getMake().size() + car.getModel().size();
  sum += static_cast<uint16_t>(car.getColor()) + car.getSeats() + car.getDoors();
  for (auto wheel : car.getWheels()) {
    sum += wheel.getDiameter() + wheel.getAirPressure() + wheel.getSnowTires();
  }
  sum += car.getLength() + car.getWidth() + car.getHeight() + uint64_t(car.getWeight());
  auto engine = car.getEngine();
  sum += engine.getHorsepower() + engine.getCylinders() + uint64_t(engine.getCc());
  sum += engine.getUsesGas() + engine.getUsesElectric();
  sum += uint64_t(car.getFuelCapacity()) + car.getFuelLevel() + car.getCupHolders();
  return sum + car.getHasPowerWindows() + car.getHasPowerSteering() + car.getHasCruiseControl() + car.getHasNavSystem();
}

static void build(capnp::MessageBuilder &message, unsigned count) {
  unsigned i = 0;
  for (auto car : message.initRoot<ParkingLot>().initCars(count)) {
    fill(car, i);
    i += 1;
  }
}

int main(int words, char **word) {
  if (words != 4) {
    return 2;
  }
  unsigned count = std::atoi(word[2]), rounds = std::atoi(word[3]);
  static capnp::word first[8192];
  auto scratch = kj::arrayPtr(first, sizeof(first) / sizeof(first[0]));
  static kj::byte written[1 << 22];
  uint64_t sum = 0;
  if (std::strcmp(word[1], "read") == 0) {
    capnp::MallocMessageBuilder message(scratch);
    build(message, count);
    for (unsigned round = 0; round < rounds; round++) {
      capnp::ReaderOptions options;
      options.traversalLimitInWords = UINT64_MAX;
      capnp::SegmentArrayMessageReader reader(message.getSegmentsForOutput(), options);
      for (auto car : reader.getRoot<ParkingLot>().getCars()) {
        sum += sum_of(car);
      }
    }
  } else {
    for (unsigned round = 0; round < rounds; round++) {
      capnp::MallocMessageBuilder message(scratch);
      build(message, count);
      if (std::strcmp(word[1], "write") == 0) {
        kj::ArrayOutputStream out(kj::arrayPtr(written, sizeof(written)));
        capnp::writeMessage(out, message);
        sum += out.getArray().size();
      }
    }
  }
  std::printf("%llu\n", static_cast<unsigned long long>(sum));
}
