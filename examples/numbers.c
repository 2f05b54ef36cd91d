int main(void){print(0);print(1);print(1);print(2);print(3);print(5);print(2147483647);}
