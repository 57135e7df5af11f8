// The addresses of the files that pages ask for besides modules. deploy/bundle replaces this module by one with the
// names that it gives them.

const addressOf = (path) => new URL(path, import.meta.url).pathname;

export const OBJECTS = addressOf('../objects.csv');
export const STEPPER = addressOf('../player/stepper.js');
