#pragma once
int main(void) { }
